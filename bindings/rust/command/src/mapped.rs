//! An overlay's buffer over a file: what states have reached so far is the file's, also where the program is killed;
//! behind it are zeros that cost neither disk nor memory. All that is unsafe in this command stands here.
use mipsuqal::Overlay;
use std::ffi::{c_int, c_void};
use std::fs::{File, OpenOptions};
use std::os::fd::AsRawFd;
use std::os::unix::fs::FileExt;
use std::path::Path;
use std::{io, ptr, slice};

extern "C" {
    fn mmap(
        place: *mut c_void,
        length: usize,
        access: c_int,
        kind: c_int,
        file: c_int,
        from: i64,
    ) -> *mut c_void;
    fn munmap(place: *mut c_void, length: usize) -> c_int;
}

// Linux's numbers.
const READ_WRITE: c_int = 1 | 2;
const FILE_HERE: c_int = 0x01 | 0x10; // shared, at this place
const ZEROS: c_int = 0x02 | 0x20 | 0x4000; // private, no file, nothing reserved

/// Pages of every machine that this runs on begin at multiples of it. The file's first is the head; the overlay
/// follows.
const PAGE: usize = 65_536;
const SPAN: usize = Overlay::LENGTH.next_multiple_of(PAGE);

/// What stands in front of a file.
pub type Head = [u8; 40];

pub struct Mapped {
    file: File,
    place: *mut c_void,
    /// How many bytes from the first on are the file's.
    filed: usize,
}

fn mapped(
    place: *mut c_void,
    length: usize,
    kind: c_int,
    file: c_int,
    from: usize,
) -> io::Result<*mut c_void> {
    // With no place the system chooses a free one; else it is one of our own, which nobody has a reference into.
    let place = unsafe { mmap(place, length, READ_WRITE, kind, file, from as i64) };
    match place.addr() == usize::MAX {
        true => Err(io::Error::last_os_error()),
        false => Ok(place),
    }
}

impl Mapped {
    /// Opens a file, or makes it.
    pub fn open(path: &Path) -> io::Result<Mapped> {
        let file = OpenOptions::new().read(true).write(true).create(true).truncate(false).open(path)?;
        if file.metadata()?.len() == 0 {
            file.set_len(PAGE as u64)?;
        }
        let found = file.metadata()?.len();
        let pages = usize::try_from(found).ok().filter(|n| n.is_multiple_of(PAGE) && *n <= PAGE + SPAN);
        let length = pages.ok_or_else(|| io::Error::other(format!("has {found} bytes: no state file")))?;
        let place = mapped(ptr::null_mut(), SPAN, ZEROS, -1, 0)?;
        let mut this = Mapped { file, place, filed: 0 };
        this.lay(length - PAGE)?;
        Ok(this)
    }

    /// From now on the first so many bytes are the file's.
    fn lay(&mut self, count: usize) -> io::Result<()> {
        if count > 0 {
            mapped(self.place, count, FILE_HERE, self.file.as_raw_fd(), PAGE)?;
        }
        self.filed = count;
        Ok(())
    }

    pub fn overlay(&self) -> &Overlay {
        // Inside a mapping that lives as long as self; the lock beside the file keeps other programs of ours away.
        let bytes = unsafe { slice::from_raw_parts(self.place.cast(), Overlay::LENGTH) };
        Overlay::of_bytes(bytes).expect("as long as published")
    }

    pub fn overlay_mut(&mut self) -> &mut Overlay {
        // Likewise, and self is lent for writing.
        let bytes = unsafe { slice::from_raw_parts_mut(self.place.cast(), Overlay::LENGTH) };
        Overlay::of_bytes_mut(bytes).expect("as long as published")
    }

    /// Returns when the disk has the first so many bytes.
    pub fn sync(&mut self, used: usize) -> io::Result<()> {
        let end = used.next_multiple_of(PAGE);
        if end > self.filed {
            self.file.set_len((PAGE + end) as u64)?;
            // Whole pages, so that the disk has room for what is written there later.
            let grown = &self.overlay().bytes()[self.filed..end.min(Overlay::LENGTH)];
            self.file.write_all_at(grown, (PAGE + self.filed) as u64)?;
            self.lay(end)?;
        }
        self.file.sync_data()
    }

    pub fn head(&self) -> io::Result<Head> {
        let mut head = [0; 40];
        self.file.read_exact_at(&mut head, 0)?;
        Ok(head)
    }

    /// Returns when the disk has the head.
    pub fn write_head(&mut self, head: &Head) -> io::Result<()> {
        self.file.write_all_at(head, 0)?;
        self.file.sync_data()
    }
}

impl Drop for Mapped {
    fn drop(&mut self) {
        // Nobody has a reference into it any more.
        unsafe { munmap(self.place, SPAN) };
    }
}
