//! Proved reads of the first `bits_len` bits of words, without tables: one call of the archive each.
use super::found;
use crate::ffi::words::*;

/// Makes a call that reads the first `bits_len` bits of words, and may have no answer. It gets a pointer to the words,
/// how many these are, how many bits, and a pointer to the answer.
#[inline(always)]
#[track_caller]
fn read(words: &[u64], bits_len: usize, call: impl FnOnce(*const u64, usize, u64, *mut u64) -> u32) -> Option<u64> {
    let mut out = 0;
    let status = call(words.as_ptr(), words.len(), bits_len as u64, &mut out);
    found(status, out, bits_len, words.len())
}

/// The bit at a position; `None` exactly where it is `bits_len` or more.
///
/// ```
/// use bitm_proved::words;
/// assert_eq!((words::get(&[2], 5, 1), words::get(&[2], 5, 5)), (Some(true), None));
/// ```
#[track_caller]
pub fn get(words: &[u64], bits_len: usize, position: usize) -> Option<bool> {
    let bit = read(words, bits_len, |at, len, bits, out| {
        // SAFETY: a slice, and room for one number.
        unsafe { bitm_bits_get(at, len, bits, position as u64, out) }
    });
    Some(bit? == 1)
}

/// The number that `width` bits from `begin` on are, lowest first, 0 to 64 bits; `None` exactly where they do not all
/// end by `bits_len`.
///
/// ```
/// use bitm_proved::words;
/// assert_eq!(words::get_number(&[0b1011_0100], 8, 2, 4), Some(0b1101));
/// ```
#[track_caller]
pub fn get_number(words: &[u64], bits_len: usize, begin: usize, width: u8) -> Option<u64> {
    read(words, bits_len, |at, len, bits, out| {
        // SAFETY: a slice, and room for one number.
        unsafe { bitm_bits_get_number(at, len, bits, begin as u64, width.into(), out) }
    })
}

/// Number `index` of an array of numbers of `width` bits; `None` exactly where it does not end by `bits_len`.
///
/// ```
/// use bitm_proved::words;
/// assert_eq!(words::get_fragment(&[0b1011_0100], 8, 1, 4), Some(0b1011));
/// ```
#[track_caller]
pub fn get_fragment(words: &[u64], bits_len: usize, index: usize, width: u8) -> Option<u64> {
    read(words, bits_len, |at, len, bits, out| {
        // SAFETY: a slice, and room for one number.
        unsafe { bitm_bits_get_fragment(at, len, bits, index as u64, width.into(), out) }
    })
}

/// How many 1 bits there are, or 0 bits where `one` is false.
///
/// ```
/// use bitm_proved::words;
/// assert_eq!((words::count(&[6], 10, true), words::count(&[6], 10, false)), (2, 8));
/// ```
#[track_caller]
pub fn count(words: &[u64], bits_len: usize, one: bool) -> usize {
    let found = read(words, bits_len, |at, len, bits, out| {
        // SAFETY: a slice, and room for one number.
        unsafe { bitm_bits_count(at, len, bits, one, out) }
    });
    found.unwrap_or(0) as usize
}

/// How many 1 bits, or 0 bits, there are from `from` on and before `to`; `None` exactly where `from` is above `to`, or
/// `to` above `bits_len`.
///
/// ```
/// use bitm_proved::words;
/// assert_eq!((words::count_range(&[6], 10, true, 2, 10), words::count_range(&[6], 10, true, 0, 11)), (Some(1), None));
/// ```
#[track_caller]
pub fn count_range(words: &[u64], bits_len: usize, one: bool, from: usize, to: usize) -> Option<usize> {
    let found = read(words, bits_len, |at, len, bits, out| {
        // SAFETY: a slice, and room for one number.
        unsafe { bitm_bits_count_range(at, len, bits, one, from as u64, to as u64, out) }
    });
    Some(found? as usize)
}

/// The position of the first 1 bit, or 0 bit, at or after `from`; `None` exactly where there is none.
///
/// ```
/// use bitm_proved::words;
/// assert_eq!((words::next(&[6], 10, true, 2), words::next(&[6], 10, true, 3)), (Some(2), None));
/// ```
#[track_caller]
pub fn next(words: &[u64], bits_len: usize, one: bool, from: usize) -> Option<usize> {
    let found = read(words, bits_len, |at, len, bits, out| {
        // SAFETY: a slice, and room for one number.
        unsafe { bitm_bits_next(at, len, bits, one, from as u64, out) }
    });
    Some(found? as usize)
}

/// The position of the last 1 bit, or 0 bit, at or before `from`, which may be past the end; `None` exactly where there
/// is none.
///
/// ```
/// use bitm_proved::words;
/// assert_eq!((words::previous(&[6], 10, true, 99), words::previous(&[6], 10, true, 0)), (Some(2), None));
/// ```
#[track_caller]
pub fn previous(words: &[u64], bits_len: usize, one: bool, from: usize) -> Option<usize> {
    let found = read(words, bits_len, |at, len, bits, out| {
        // SAFETY: a slice, and room for one number.
        unsafe { bitm_bits_previous(at, len, bits, one, from as u64, out) }
    });
    Some(found? as usize)
}

/// The positions of the 1 bits, or 0 bits, from `from` on, in increasing order, until there is no more room.
///
/// ```
/// use bitm_proved::words;
/// assert_eq!(words::positions(&[0b10110], 5, true, 2, &mut [0; 9]), [2, 4]);
/// ```
#[track_caller]
pub fn positions<'b>(words: &[u64], bits_len: usize, one: bool, from: usize, out: &'b mut [u64]) -> &'b [u64] {
    let (at, len, mut written) = (words.as_ptr(), words.len(), 0);
    let (bits, from, to, room) = (bits_len as u64, from as u64, out.as_mut_ptr(), out.len());
    // SAFETY: two slices that do not overlap, and room for one number.
    let status = unsafe { bitm_bits_positions(at, len, bits, one, from, to, room, &mut written) };
    found(status, written, bits_len, len);
    &out[..written as usize]
}

/// Whether `count` bits of two words from two positions on are the same; `None` where a range is not inside.
///
/// ```
/// use bitm_proved::words;
/// assert_eq!(words::equal_range(&[0b1100], 2, &[0b11], 0, 2), Some(true));
/// ```
pub fn equal_range(a: &[u64], a_begin: usize, b: &[u64], b_begin: usize, count: usize) -> Option<bool> {
    let (to, to_len, from, from_len) = (a.as_ptr(), a.len(), b.as_ptr(), b.len());
    let (to_begin, from_begin, mut out) = (a_begin as u64, b_begin as u64, 0);
    // SAFETY: two slices, and room for one number.
    let status = unsafe {
        let count = count as u64;
        bitm_bits_equal_range(to, to_len, to_begin, from, from_len, from_begin, count, &mut out)
    };
    (status == BITM_OK).then_some(out == 1)
}

macro_rules! compares {
    ($(#[$doc:meta])* $name:ident, $call:ident) => {
        $(#[$doc])*
        #[track_caller]
        pub fn $name(words: &[u64], other: &[u64], bits_len: usize) -> bool {
            let (at, len, from, from_len, mut out) = (words.as_ptr(), words.len(), other.as_ptr(), other.len(), 0);
            // SAFETY: two slices, and room for one number.
            let status = unsafe { $call(at, len, from, from_len, bits_len as u64, &mut out) };
            found(status, out, bits_len, len.min(from_len)) == Some(1)
        }
    };
}
compares! {
    /// Whether a position among the first `bits_len` has a 1 bit in both: up to the first word that decides.
    ///
    /// ```
    /// use bitm_proved::words;
    /// let (these, those) = ([0b110], [0b1100]);
    /// assert_eq!([4, 2].map(|bits_len| words::intersects(&these, &those, bits_len)), [true, false]);
    /// ```
    intersects, bitm_bits_intersects
}
compares! {
    /// Whether each 1 bit of the words among the first `bits_len` is a 1 bit of the other words: up to the first word
    /// that decides.
    ///
    /// ```
    /// use bitm_proved::words;
    /// assert_eq!((words::is_subset(&[0b100], &[0b1100], 4), words::is_subset(&[0b110], &[0b1100], 4)), (true, false));
    /// ```
    is_subset, bitm_bits_is_subset
}

/// The position of the 1 bit of a word with a rank; `None` exactly where there is none.
///
/// ```
/// use bitm_proved::words;
/// assert_eq!((words::select_in_word(0b101, 1), words::select_in_word(0b101, 2)), (Some(2), None));
/// ```
#[inline]
pub fn select_in_word(word: u64, rank: u8) -> Option<u8> {
    let mut out = 0;
    // SAFETY: room for one number.
    let status = unsafe { bitm_bits_select_in_word(word, rank.into(), &mut out) };
    (status == BITM_OK).then_some(out as u8)
}

/// How many binary digits a number has, as [`bits_to_store`](crate::bits_to_store).
///
/// ```
/// assert_eq!(bitm_proved::words::to_store(8), 4);
/// ```
pub fn to_store(value: u64) -> u8 {
    // SAFETY: a number is passed.
    unsafe { bitm_bits_to_store(value) as u8 }
}

/// The logarithm of a density, as [`optimal_combined_sampling`](crate::optimal_combined_sampling).
///
/// ```
/// assert_eq!(bitm_proved::words::optimal_log2(500, 1000, 13), 12);
/// ```
pub fn optimal_log2(items: usize, bits_len: usize, most: u8) -> u8 {
    // SAFETY: numbers are passed.
    unsafe { bitm_optimal_log2(items as u64, bits_len as u64, most.into()) as u8 }
}
