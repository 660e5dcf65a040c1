//! Which item of a list is why C builds nothing of it: looked for on the way to an error alone.
use crate::ffi::blocks::*;
use crate::sys::OK;

/// The index that a call writes where it returns OK.
fn index(call: impl FnOnce(*mut u64) -> u32) -> Option<usize> {
    let mut out = 0;
    (call(&mut out) == OK).then_some(out as usize)
}

/// The first number that is less than the one before it or, if `strictly`, equal to it.
pub(crate) fn unsorted(numbers: &[u64], strictly: bool) -> Option<usize> {
    // SAFETY: a slice, and room for a number.
    index(|out| unsafe { bitm_numbers_unsorted(numbers.as_ptr(), numbers.len(), strictly, out) })
}

/// The first number above `most`.
pub(crate) fn above(numbers: &[u64], most: u64) -> Option<usize> {
    // SAFETY: a slice, and room for a number.
    index(|out| unsafe { bitm_numbers_above(numbers.as_ptr(), numbers.len(), most, out) })
}

/// The first number that is not below `end`.
pub(crate) fn not_below(numbers: &[u64], end: u64) -> Option<usize> {
    match end.checked_sub(1) {
        Some(most) => above(numbers, most),
        None => (!numbers.is_empty()).then_some(0),
    }
}

/// The first number of more than `width` bits, which is 1 to 64.
pub(crate) fn wider(numbers: &[u64], width: u32) -> Option<usize> {
    above(numbers, u64::MAX >> (64 - width))
}

/// The first node at which degrees form no tree; `None` also where there are no degrees.
pub(crate) fn misfit(degrees: &[u64]) -> Option<usize> {
    // SAFETY: a slice, and room for a number.
    index(|out| unsafe { bitm_tree_misfit(degrees.as_ptr(), degrees.len(), out) })
}

/// The first word that does not stand after the one before it.
pub(crate) fn unsorted_word(bytes: &[u8], starts: &[u64]) -> Option<usize> {
    let (at, len) = (bytes.as_ptr(), bytes.len());
    // SAFETY: two slices, and room for a number.
    index(|out| unsafe { bitm_trie_unsorted_word(at, len, starts.as_ptr(), starts.len(), out) })
}
