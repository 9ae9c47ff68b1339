// A file mapped for this process alone: what is written to the mapping stays in memory, page by page as it is
// written, and the file is as it was. Nothing is read that nobody looks at. For Linux on x86-64, as the library is;
// memmap2's `MmapOptions::map_copy` is the same for other systems.
use std::{
    ffi::c_void,
    fs::File,
    io,
    ops::{Deref, DerefMut},
    os::fd::AsRawFd,
    ptr, slice,
};

extern "C" {
    fn mmap(at: *mut c_void, length: usize, protection: i32, flags: i32, file: i32, offset: i64) -> *mut c_void;
    fn munmap(at: *mut c_void, length: usize) -> i32;
}

const READ_AND_WRITE: i32 = 1 | 2;
/// Copied on write, and with no memory set aside before.
const PRIVATE: i32 = 0x2 | 0x4000;

/// A file's bytes, to read and to write in memory. While it lives nobody may write or cut the file.
pub struct Mapped {
    at: *mut c_void,
    length: usize,
}

impl Mapped {
    /// Maps a whole file, which is not empty.
    pub fn new(file: &File) -> io::Result<Mapped> {
        let length = usize::try_from(file.metadata()?.len()).map_err(io::Error::other)?;
        // SAFETY: memory that is new and this value's alone.
        let at = unsafe { mmap(ptr::null_mut(), length, READ_AND_WRITE, PRIVATE, file.as_raw_fd(), 0) };
        if at as isize == -1 {
            return Err(io::Error::last_os_error());
        }
        Ok(Mapped { at, length })
    }
}

impl Deref for Mapped {
    type Target = [u8];

    fn deref(&self) -> &[u8] {
        // SAFETY: so many bytes are mapped there until the value is dropped.
        unsafe { slice::from_raw_parts(self.at.cast(), self.length) }
    }
}

impl DerefMut for Mapped {
    fn deref_mut(&mut self) -> &mut [u8] {
        // SAFETY: as for `deref`, and the value is lent to one alone.
        unsafe { slice::from_raw_parts_mut(self.at.cast(), self.length) }
    }
}

impl Drop for Mapped {
    fn drop(&mut self) {
        // SAFETY: it was mapped by `new`, and no slice of it is left.
        unsafe { munmap(self.at, self.length) };
    }
}
