//! Huge pages, which are requested for large arrays on Linux: a query then waits less for the tables of the pages.
use core::ffi::{c_int, c_long, c_void};

/// From how many bytes on: two huge pages of x86-64, so that at least one lies whole inside.
const LEAST: usize = 4 << 20;
const MADV_HUGEPAGE: c_int = 14;
const _SC_PAGESIZE: c_int = 30;

extern "C" {
    fn madvise(at: *mut c_void, len: usize, advice: c_int) -> c_int;
    fn sysconf(name: c_int) -> c_long;
}

/// Requests huge pages for the whole pages of an array. The system may refuse: then the pages stay small.
pub(crate) fn request(at: *mut u8, len: usize) {
    if len < LEAST {
        return;
    }
    // SAFETY: the call reads a number of the system.
    let page = usize::try_from(unsafe { sysconf(_SC_PAGESIZE) }).unwrap_or(0);
    if !page.is_power_of_two() || page >= LEAST {
        return;
    }
    let skipped = at.align_offset(page);
    if skipped < len {
        // SAFETY: the pages lie in the array, and the advice changes none of their bytes.
        unsafe { madvise(at.add(skipped).cast(), (len - skipped) & !(page - 1), MADV_HUGEPAGE) };
    }
}
