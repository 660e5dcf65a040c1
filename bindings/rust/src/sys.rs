//! The only module with `unsafe` blocks: calls of the archive, memory, owners, bytes and mapped files.
pub(crate) mod block;
pub(crate) mod bytes;
pub(crate) mod cursor;
pub(crate) mod dictionary;
pub(crate) mod faults;
#[cfg(all(feature = "mmap", unix))]
pub(crate) mod files;
pub(crate) mod hash;
pub(crate) mod held;
#[cfg(all(feature = "std", target_os = "linux"))]
pub(crate) mod huge;
pub(crate) mod index;
pub(crate) mod key_hash;
pub(crate) mod kinds;
pub(crate) mod levels;
pub(crate) mod lists;
#[cfg(all(feature = "mmap", unix))]
pub(crate) mod mapped;
pub(crate) mod matrix;
pub(crate) mod memory;
pub(crate) mod owned;
pub(crate) mod owner;
pub(crate) mod parts;
#[cfg(feature = "std")]
pub(crate) mod read;
pub(crate) mod reads;
pub(crate) mod sections;
pub(crate) mod seeded;
pub(crate) mod sequence;
pub(crate) mod shards;
pub(crate) mod sparse;
pub(crate) mod stored;
pub(crate) mod strings;
pub(crate) mod tables;
pub(crate) mod text;
pub(crate) mod tree;
pub(crate) mod trie;
pub(crate) mod version2;
pub(crate) mod view;
pub(crate) mod writes;

use crate::errors::WrongTables;
pub(crate) use crate::ffi::words::{BITM_NONE as NONE, BITM_OK as OK, BITM_UNSORTED as UNSORTED, BITM_WRONG as WRONG};
use core::mem::MaybeUninit;

/// The number of the archive's version: 10000 times the major, 100 times the minor one, and the patch.
///
/// ```
/// assert!(bitm_proved::library_version() >= 300);
/// ```
pub fn library_version() -> u32 {
    // SAFETY: the call takes nothing.
    unsafe { crate::ffi::words::bitm_version() }
}

/// Makes a query of words with tables, or of a sequence.
///
/// # Safety
/// Where the call returns OK, it has written the number.
#[inline(always)]
pub(crate) unsafe fn query(call: impl FnOnce(*mut u64) -> u32) -> Result<Option<u64>, WrongTables> {
    let mut out = MaybeUninit::uninit();
    match call(out.as_mut_ptr()) {
        // SAFETY: the caller's duty.
        OK => Ok(Some(unsafe { out.assume_init() })),
        NONE => Ok(None),
        _ => Err(WrongTables),
    }
}

/// The answer of a query of the first `bits_len` bits of words.
#[inline(always)]
#[track_caller]
pub(crate) fn found(status: u32, out: u64, bits_len: usize, words_len: usize) -> Option<u64> {
    match status {
        OK => Some(out),
        NONE => None,
        _ => wrong_length(bits_len, words_len),
    }
}

#[cold]
#[track_caller]
fn wrong_length(bits_len: usize, words_len: usize) -> ! {
    panic!("{bits_len} bits are more than {words_len} words have, or these are 2^58 or more")
}
