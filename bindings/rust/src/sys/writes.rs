//! Proved writes of the first `bits_len` bits of words, without tables: one call of the archive each. Every other bit
//! stays as it was.
use super::found;
use crate::ffi::words::*;

/// Makes a call that writes into the first `bits_len` bits of words, or nothing. It gets a pointer to the words, how
/// many these are, and how many bits.
#[inline(always)]
#[track_caller]
fn write(words: &mut [u64], bits_len: usize, call: impl FnOnce(*mut u64, usize, u64) -> u32) -> Option<()> {
    let status = call(words.as_mut_ptr(), words.len(), bits_len as u64);
    found(status, 0, bits_len, words.len()).map(|_| ())
}

/// Makes the bit at a position the value; `None`, and nothing is written, exactly where it is `bits_len` or more.
///
/// ```
/// use bitm_proved::words;
/// let mut bits = [0];
/// assert_eq!((words::set(&mut bits, 5, 4, true), words::set(&mut bits, 5, 5, true), bits), (Some(()), None, [16]));
/// ```
#[track_caller]
pub fn set(words: &mut [u64], bits_len: usize, position: usize, value: bool) -> Option<()> {
    write(words, bits_len, |at, len, bits| {
        // SAFETY: a mutable slice.
        unsafe { bitm_bits_set(at, len, bits, position as u64, value) }
    })
}

/// Makes the bits at a list of positions the value. Returns how many of the positions are `bits_len` or more: these
/// change nothing.
///
/// ```
/// use bitm_proved::words;
/// let mut bits = [0];
/// assert_eq!((words::set_list(&mut bits, 5, &[4, 0, 9, 4], true), bits), (1, [0b1_0001]));
/// ```
#[track_caller]
pub fn set_list(words: &mut [u64], bits_len: usize, positions: &[usize], value: bool) -> usize {
    let (at, len, mut outside) = (words.as_mut_ptr(), words.len(), 0);
    let (bits, list) = (bits_len as u64, super::memory::as_u64(positions));
    // SAFETY: a mutable slice and a shared one, which do not overlap, and room for one number.
    let status = unsafe { bitm_bits_set_list(at, len, bits, list.as_ptr(), list.len(), value, &mut outside) };
    found(status, outside, bits_len, len).unwrap_or(0) as usize
}

/// Replaces `width` bits from `begin` on by the lowest bits of a number; `None`, and nothing is written, exactly where
/// they do not all end by `bits_len`.
///
/// ```
/// use bitm_proved::words;
/// let mut bits = [0, 0];
/// assert_eq!((words::set_number(&mut bits, 70, 62, 4, 0b0111), bits), (Some(()), [3 << 62, 1]));
/// ```
#[track_caller]
pub fn set_number(words: &mut [u64], bits_len: usize, begin: usize, width: u8, value: u64) -> Option<()> {
    write(words, bits_len, |at, len, bits| {
        // SAFETY: a mutable slice.
        unsafe { bitm_bits_set_number(at, len, bits, begin as u64, width.into(), value) }
    })
}

/// Of the `width` bits from `begin` on, flips the bits at which a number has 1 bits; `None` as for `set_number`.
///
/// ```
/// use bitm_proved::words;
/// let mut bits = [0b1010];
/// assert_eq!((words::xor_number(&mut bits, 4, 1, 2, 0b11), bits), (Some(()), [0b1100]));
/// ```
#[track_caller]
pub fn xor_number(words: &mut [u64], bits_len: usize, begin: usize, width: u8, value: u64) -> Option<()> {
    write(words, bits_len, |at, len, bits| {
        // SAFETY: a mutable slice.
        unsafe { bitm_bits_xor_number(at, len, bits, begin as u64, width.into(), value) }
    })
}

/// Replaces number `index` of an array of numbers of `width` bits; `None` as for `set_number`.
///
/// ```
/// use bitm_proved::words;
/// let mut bits = [0];
/// assert_eq!((words::set_fragment(&mut bits, 64, 3, 5, 9), bits), (Some(()), [9 << 15]));
/// ```
#[track_caller]
pub fn set_fragment(words: &mut [u64], bits_len: usize, index: usize, width: u8, value: u64) -> Option<()> {
    write(words, bits_len, |at, len, bits| {
        // SAFETY: a mutable slice.
        unsafe { bitm_bits_set_fragment(at, len, bits, index as u64, width.into(), value) }
    })
}

/// Swaps two numbers of an array of numbers of `width` bits; `None` as for `set_number`.
///
/// ```
/// use bitm_proved::words;
/// let mut bits = [0x21];
/// assert_eq!((words::swap_fragments(&mut bits, 8, 0, 1, 4), bits), (Some(()), [0x12]));
/// ```
#[track_caller]
pub fn swap_fragments(words: &mut [u64], bits_len: usize, first: usize, second: usize, width: u8) -> Option<()> {
    write(words, bits_len, |at, len, bits| {
        // SAFETY: a mutable slice.
        unsafe { bitm_bits_swap_fragments(at, len, bits, first as u64, second as u64, width.into()) }
    })
}

/// Replaces each of the first `count` numbers of an array of numbers of `width` bits; `None` as for `set_number`.
///
/// ```
/// use bitm_proved::words;
/// let mut bits = [0];
/// assert_eq!((words::fill_fragments(&mut bits, 64, 4, 5, 3), bits), (Some(()), [0x555]));
/// ```
#[track_caller]
pub fn fill_fragments(words: &mut [u64], bits_len: usize, width: u8, value: u64, count: usize) -> Option<()> {
    write(words, bits_len, |at, len, bits| {
        // SAFETY: a mutable slice.
        unsafe { bitm_bits_fill_fragments(at, len, bits, width.into(), value, count) }
    })
}

/// Makes each bit from `bits_len` on a 0 bit.
///
/// ```
/// let mut bits = [u64::MAX, 7];
/// bitm_proved::words::clear_from(&mut bits, 3);
/// assert_eq!(bits, [7, 0]);
/// ```
pub fn clear_from(words: &mut [u64], bits_len: usize) {
    // SAFETY: a mutable slice; the call always succeeds.
    let _ = unsafe { bitm_bits_clear_from(words.as_mut_ptr(), words.len(), bits_len as u64) };
}

/// Makes the bits from `from` on and before `to` the value; `None`, and nothing is written, exactly where `from` is
/// above `to`, or `to` above `bits_len`.
///
/// ```
/// let mut bits = [0];
/// assert_eq!((bitm_proved::words::fill_range(&mut bits, 64, 2, 4, true), bits), (Some(()), [0b1100]));
/// ```
#[track_caller]
pub fn fill_range(words: &mut [u64], bits_len: usize, from: usize, to: usize, value: bool) -> Option<()> {
    write(words, bits_len, |at, len, bits| {
        // SAFETY: a mutable slice.
        unsafe { bitm_bits_fill_range(at, len, bits, from as u64, to as u64, value) }
    })
}

/// Flips the bits from `from` on and before `to`; `None` as for `fill_range`.
///
/// ```
/// let mut bits = [0b1010];
/// assert_eq!((bitm_proved::words::flip_range(&mut bits, 4, 0, 4), bits), (Some(()), [0b0101]));
/// ```
#[track_caller]
pub fn flip_range(words: &mut [u64], bits_len: usize, from: usize, to: usize) -> Option<()> {
    write(words, bits_len, |at, len, bits| {
        // SAFETY: a mutable slice.
        unsafe { bitm_bits_flip_range(at, len, bits, from as u64, to as u64) }
    })
}

/// Copies `count` bits of other words from `from_begin` on to `to_begin`; `None`, and nothing is written, where a range
/// is not inside.
///
/// ```
/// let mut bits = [0];
/// assert_eq!((bitm_proved::words::copy_range(&mut bits, 4, &[0b110], 1, 2), bits), (Some(()), [0b11_0000]));
/// ```
pub fn copy_range(to: &mut [u64], to_begin: usize, from: &[u64], from_begin: usize, count: usize) -> Option<()> {
    let (at, len, other, other_len) = (to.as_mut_ptr(), to.len(), from.as_ptr(), from.len());
    let (to_begin, from_begin, count) = (to_begin as u64, from_begin as u64, count as u64);
    // SAFETY: a mutable slice and a shared one, which do not overlap.
    let status = unsafe { bitm_bits_copy_range(at, len, to_begin, other, other_len, from_begin, count) };
    (status == BITM_OK).then_some(())
}

macro_rules! combines {
    ($(#[$doc:meta])* $name:ident, $call:ident) => {
        $(#[$doc])*
        pub fn $name(words: &mut [u64], other: &[u64]) -> Option<()> {
            let (at, len) = (words.as_mut_ptr(), words.len());
            // SAFETY: a mutable slice and a shared one, which do not overlap.
            let status = unsafe { $call(at, len, other.as_ptr(), other.len()) };
            (status == BITM_OK).then_some(())
        }
    };
}
combines! {
    /// Leaves the 1 bits that the other words have too; `None`, and nothing is written, where the lengths differ.
    ///
    /// ```
    /// let mut bits = [0b1100];
    /// assert_eq!((bitm_proved::words::and(&mut bits, &[0b1010]), bits), (Some(()), [0b1000]));
    /// ```
    and, bitm_bits_and
}
combines! {
    /// Adds the 1 bits of the other words; `None` as for `and`.
    ///
    /// ```
    /// let mut bits = [0b1100];
    /// assert_eq!((bitm_proved::words::or(&mut bits, &[0b1010]), bits), (Some(()), [0b1110]));
    /// ```
    or, bitm_bits_or
}
combines! {
    /// Flips the bits at the 1 bits of the other words; `None` as for `and`.
    ///
    /// ```
    /// let mut bits = [0b1100];
    /// assert_eq!((bitm_proved::words::xor(&mut bits, &[0b1010]), bits), (Some(()), [0b0110]));
    /// ```
    xor, bitm_bits_xor
}
combines! {
    /// Clears the bits at the 1 bits of the other words; `None` as for `and`.
    ///
    /// ```
    /// let mut bits = [0b1100];
    /// assert_eq!((bitm_proved::words::and_not(&mut bits, &[0b1010]), bits), (Some(()), [0b0100]));
    /// ```
    and_not, bitm_bits_and_not
}
