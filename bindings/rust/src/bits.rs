//! Bits of slices of words: bit `i` is bit `i % 64`, lowest first, of word `i / 64`.
mod found;
mod fragments;
mod numbers;
mod single;

use crate::iterators::{BitIterator, BitOnesIterator, BitZerosIterator};
use crate::masks::n_lowest_bits_0_64;
use core::ops::Range;
use {found::found_bits, fragments::fragments, numbers::numbers, single::single_bits};

/// Reads and writes of the bits of a slice.
///
/// A call without `try_` panics where its range is outside, and says the numbers; so does one with `unchecked`. Widths
/// are 0 to 64. `init_` writes a number over 0 bits, or over itself. Where bits are unmasked, they are those up to the
/// end of the word, or 64 where the range crosses that end. A successive form moves its position or index on.
///
/// For `[u64]`, single bits, numbers, fragments and iterators are inlined Rust: tested beside the proved calls of
/// [`words`](crate::words), not proved. `count_bit_ones`, `count_bit_zeros`, `find_bit_one`, `trailing_zero_bits` and
/// `rfind_bit_one_unchecked` are proved calls.
///
/// ```
/// use bitm_proved::BitAccess;
/// let mut words = [0u64; 2];
/// words.set_bit(5);
/// words.set_bits(62, 0b101, 3);
/// words.set_fragment(20, 0b11, 4);
/// assert!(words.bit_ones().eq([5, 62, 64, 80, 81]));
/// ```
pub trait BitAccess {
    single_bits!();
    numbers!();
    fragments!();
    found_bits!();
}

/// The position of the first bit of a fragment.
#[inline(always)]
#[track_caller]
fn begin_of(index: usize, width: u8) -> usize {
    match index.checked_mul(width as usize) {
        Some(begin) => begin,
        None => panic!("fragment {index} of {width} bits each begins at position 2^64 or later"),
    }
}

/// The bits of a range, or a panic.
#[inline(always)]
#[track_caller]
fn inside<T>(done: Option<T>, begin: usize, len: u8) -> T {
    match done {
        Some(it) => it,
        None => panic!("{len} bits from position {begin} on are not all inside"),
    }
}
