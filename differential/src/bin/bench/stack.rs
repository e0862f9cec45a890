//! What a call uses of its stack: a thread of its own on a painted stack that is as small as the panel's may be.
use differential::guarded::mapped;
use std::ffi::c_void;
use std::ptr::null_mut;

/// What is said to be enough for each call.
pub const STACK: usize = 64 << 10;

const PAINT: u8 = 0xa5;

/// `pthread_attr_t`, which has 56 bytes.
type Attributes = [u64; 8];
type Start = extern "C" fn(*mut c_void) -> *mut c_void;

extern "C" {
    fn pthread_attr_init(attributes: *mut Attributes) -> i32;
    fn pthread_attr_setstack(attributes: *mut Attributes, stack: *mut u8, bytes: usize) -> i32;
    fn pthread_create(
        thread: *mut usize,
        with: *const Attributes,
        start: Start,
        argument: *mut c_void,
    ) -> i32;
    fn pthread_join(thread: usize, result: *mut *mut c_void) -> i32;
}

extern "C" fn start<F: FnMut()>(run: *mut c_void) -> *mut c_void {
    unsafe { (*run.cast::<F>())() };
    null_mut()
}

fn touched<F: FnMut()>(run: &mut F) -> usize {
    let stack = mapped(STACK);
    let (mut attributes, mut thread) = ([0; 8], 0);
    let painted = unsafe {
        stack.write_bytes(PAINT, STACK);
        assert_eq!(pthread_attr_init(&mut attributes), 0);
        assert_eq!(pthread_attr_setstack(&mut attributes, stack, STACK), 0);
        let argument = std::ptr::from_mut(run).cast();
        assert_eq!(pthread_create(&mut thread, &attributes, start::<F>, argument), 0);
        assert_eq!(pthread_join(thread, null_mut()), 0);
        std::slice::from_raw_parts(stack, STACK)
    };
    STACK - painted.iter().take_while(|byte| **byte == PAINT).count()
}

/// Bytes that a run touches beyond those of a thread that does nothing.
pub fn depth(mut run: impl FnMut()) -> usize {
    touched(&mut run) - touched(&mut || ())
}
