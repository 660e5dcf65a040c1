//! Files that are mapped, by the C library's calls.
use core::ffi::{c_int, c_void};
use std::fs::File;
use std::io::{Error, ErrorKind, Result};
use std::os::fd::AsRawFd;
use std::path::Path;
use std::ptr::{self, NonNull};
use std::slice;

const PROT_READ: c_int = 1;
const MAP_PRIVATE: c_int = 2;

extern "C" {
    fn mmap(at: *mut c_void, len: usize, protection: c_int, flags: c_int, file: c_int, offset: i64) -> *mut c_void;
    fn munmap(at: *mut c_void, len: usize) -> c_int;
}

/// The bytes of a file, mapped: they are read from it as they are used, and all processes that map the file share them.
///
/// To map a file takes `unsafe`; [`words_from_file`](crate::words_from_file) and the `read` of each structure, such as
/// [`Index::read`](crate::Index::read), copy it into memory and take none.
///
/// ```
/// let path = std::env::temp_dir().join(format!("bitm-mapped-{}", std::process::id()));
/// std::fs::write(&path, "12345678")?;
/// // SAFETY: nobody writes to the file or truncates it while it is mapped.
/// let mapped = unsafe { bitm_proved::Mapped::open(&path)? };
/// let bytes: &[u8] = mapped.as_ref();
/// assert_eq!(bytes, b"12345678");
/// # std::fs::remove_file(&path)?;
/// # Ok::<(), std::io::Error>(())
/// ```
#[derive(Debug)]
pub struct Mapped {
    at: NonNull<u8>,
    len: usize,
}

// SAFETY: the memory is read alone, and belongs to the value.
unsafe impl Send for Mapped {}
// SAFETY: as for `Send`.
unsafe impl Sync for Mapped {}

impl Mapped {
    /// Maps the file at a path.
    ///
    /// # Safety
    /// Until the value is dropped, nobody may write to the file or truncate it: neither this process nor another. The
    /// bytes are borrowed as a shared slice, which must not change; and where the file was truncated, the system ends a
    /// program that reads after its end.
    ///
    /// # Errors
    /// The error of the system, where it refuses the file or the memory.
    ///
    /// ```
    /// let path = std::env::temp_dir().join(format!("bitm-mapped-open-{}", std::process::id()));
    /// std::fs::write(&path, "")?;
    /// // SAFETY: nobody writes to the file or truncates it while it is mapped.
    /// let empty = unsafe { bitm_proved::Mapped::open(&path)? };
    /// assert!(empty.as_ref().is_empty());
    /// # std::fs::remove_file(&path)?;
    /// # Ok::<(), std::io::Error>(())
    /// ```
    ///
    /// Without `unsafe` it is refused:
    ///
    /// ```compile_fail,E0133
    /// let mapped = bitm_proved::Mapped::open("numbers.bitm")?;
    /// # Ok::<(), std::io::Error>(())
    /// ```
    pub unsafe fn open(path: impl AsRef<Path>) -> Result<Self> {
        let file = File::open(path)?;
        let len = usize::try_from(file.metadata()?.len())
            .ok()
            .filter(|len| *len <= isize::MAX as usize)
            .ok_or(ErrorKind::InvalidData)?;
        if len == 0 {
            let at = NonNull::<u64>::dangling().cast();
            return Ok(Mapped { at, len });
        }
        // SAFETY: the system chooses the address, so nothing that is mapped is replaced; that the bytes stay is the
        // caller's duty.
        let at = unsafe {
            let fd = file.as_raw_fd();
            mmap(ptr::null_mut(), len, PROT_READ, MAP_PRIVATE, fd, 0)
        };
        // The call answers -1 where it fails.
        match NonNull::new(at.cast::<u8>()) {
            Some(at) if at.as_ptr() as usize != usize::MAX => Ok(Mapped { at, len }),
            _ => Err(Error::last_os_error()),
        }
    }
}

impl AsRef<[u8]> for Mapped {
    fn as_ref(&self) -> &[u8] {
        // SAFETY: `len` bytes are mapped until `self` is dropped.
        unsafe { slice::from_raw_parts(self.at.as_ptr(), self.len) }
    }
}

impl Drop for Mapped {
    fn drop(&mut self) {
        if self.len > 0 {
            // SAFETY: this was mapped, and nobody borrows it any more.
            unsafe { munmap(self.at.as_ptr().cast(), self.len) };
        }
    }
}
