//! The bytes of a file as the system maps them: no copy of them is held in memory, and only the parts that are looked at are
//! read. What cannot be mapped, such as standard input, is read into memory, as far as is wanted.

use crate::failure::Failure;
use crate::input::Input;
use std::ffi::{c_int, c_void, OsStr};
use std::fs::File;
use std::os::fd::AsRawFd;
use std::ptr::{null_mut, NonNull};

extern "C" {
    fn mmap(
        at: *mut c_void,
        length: usize,
        use_: c_int,
        kind: c_int,
        file: c_int,
        from: i64,
    ) -> *mut c_void;
    fn munmap(at: *mut c_void, length: usize) -> c_int;
}

const READ: c_int = 1;
const PRIVATE: c_int = 2;

/// Those of a file, which must not be changed or cut short while they are looked at.
pub enum Bytes {
    Mapped(Mapping),
    Read(Vec<u8>),
}

pub struct Mapping {
    at: NonNull<c_void>,
    length: usize,
}

impl Bytes {
    /// Those of the file of that name, or of standard input for `-`; of what cannot be mapped no more than `most`.
    pub fn open(path: &OsStr, most: usize) -> Result<Bytes, Failure> {
        if path != "-" {
            let cannot = |error| Failure::Cannot(path.to_string_lossy().into_owned(), error);
            let file = File::open(path).map_err(cannot)?;
            let length = file.metadata().map_err(cannot)?.len();
            if let Some(mapping) = Mapping::of(&file, length) {
                return Ok(Bytes::Mapped(mapping));
            }
        }
        Input::open(path)?.up_to(most as u64).map(Bytes::Read)
    }

    pub fn as_slice(&self) -> &[u8] {
        match self {
            // SAFETY: the mapping is there, of that length and readable, as long as this value is.
            Bytes::Mapped(mapping) => unsafe {
                std::slice::from_raw_parts(mapping.at.as_ptr().cast(), mapping.length)
            },
            Bytes::Read(bytes) => bytes,
        }
    }
}

impl Mapping {
    /// None for what has no length or cannot be mapped.
    fn of(file: &File, length: u64) -> Option<Mapping> {
        let length = usize::try_from(length).ok().filter(|&length| length > 0)?;
        // SAFETY: the system chooses where; it answers all ones where it cannot.
        let at = unsafe { mmap(null_mut(), length, READ, PRIVATE, file.as_raw_fd(), 0) };
        let at = NonNull::new(at).filter(|at| at.as_ptr() as usize != usize::MAX)?;
        Some(Mapping { at, length })
    }
}

impl Drop for Mapping {
    fn drop(&mut self) {
        // SAFETY: it was mapped with that length and is not used any more.
        unsafe { munmap(self.at.as_ptr(), self.length) };
    }
}
