//! Memory between two pages that no one may touch.

pub const PAGE: usize = 4_096;

extern "C" {
    fn mmap(at: *mut u8, length: usize, protection: i32, flags: i32, file: i32, offset: i64) -> *mut u8;
    fn mprotect(at: *mut u8, length: usize, protection: i32) -> i32;
}

const NO_ACCESS: i32 = 0;
const READ_AND_WRITE: i32 = 3;
/// MAP_PRIVATE, MAP_ANONYMOUS and MAP_NORESERVE.
const OF_ITS_OWN: i32 = 0x4022;

/// Zeros in whole pages, for as long as the program runs.
pub fn mapped(room: usize) -> *mut u8 {
    assert_eq!(room % PAGE, 0);
    unsafe {
        let base = mmap(std::ptr::null_mut(), room + 2 * PAGE, NO_ACCESS, OF_ITS_OWN, -1, 0);
        assert!(base as isize != -1, "no memory");
        assert_eq!(mprotect(base.add(PAGE), room, READ_AND_WRITE), 0);
        base.add(PAGE)
    }
}
