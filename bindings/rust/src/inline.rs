//! Reads and writes of a few bits of words: inlined Rust, tested beside the proved calls and not proved.
use crate::masks::n_lowest_bits_0_64;

/// The bit at a position; `None` exactly where there is none.
#[inline(always)]
pub(crate) fn bit(words: &[u64], position: usize) -> Option<bool> {
    let word = words.get(position / 64)?;
    Some(word >> (position % 64) & 1 == 1)
}

/// Makes the bit at a position the value; `None` exactly where there is none.
#[inline(always)]
pub(crate) fn put_bit(words: &mut [u64], position: usize, value: bool) -> Option<()> {
    let word = words.get_mut(position / 64)?;
    let one = 1 << (position % 64);
    *word = if value { *word | one } else { *word & !one };
    Some(())
}

/// Whether a range of no bits begins inside or at the end.
#[inline(always)]
fn is_nothing(words: &[u64], begin: usize, width: u8) -> bool {
    width == 0 && begin / 64 == words.len() && begin % 64 == 0
}

/// `width` bits from `begin` on, with those after them up to the end of the word, or up to 64 bits where the range
/// crosses that end.
#[inline(always)]
pub(crate) fn read_unmasked(words: &[u64], begin: usize, width: u8) -> Option<u64> {
    let (at, shift) = (begin / 64, begin % 64);
    if width > 64 {
        return None;
    }
    let Some(first) = words.get(at) else {
        return is_nothing(words, begin, width).then_some(0);
    };
    let mut bits = first >> shift;
    if shift + width as usize > 64 {
        bits |= words.get(at + 1)? << (64 - shift);
    }
    Some(bits)
}

/// The number that `width` bits from `begin` on are, lowest first; `None` exactly where they are not all inside.
#[inline(always)]
pub(crate) fn read(words: &[u64], begin: usize, width: u8) -> Option<u64> {
    Some(read_unmasked(words, begin, width)? & n_lowest_bits_0_64(width))
}

/// Combines each word of the range with its part of the mask and of the value, which are moved to their position.
#[inline(always)]
fn change(
    words: &mut [u64],
    begin: usize,
    width: u8,
    (mask, value): (u64, u64),
    combine: impl Fn(u64, u64, u64) -> u64,
) -> Option<()> {
    let (at, shift) = (begin / 64, begin % 64);
    if width > 64 {
        return None;
    }
    if shift + width as usize > 64 {
        let [first, second] = words.get_mut(at..at + 2)? else {
            return None;
        };
        *first = combine(*first, mask << shift, value << shift);
        *second = combine(*second, mask >> (64 - shift), value >> (64 - shift));
    } else if let Some(word) = words.get_mut(at) {
        *word = combine(*word, mask << shift, value << shift);
    } else if !is_nothing(words, begin, width) {
        return None;
    }
    Some(())
}

/// Replaces `width` bits from `begin` on by the lowest bits of a number.
#[inline(always)]
pub(crate) fn write(words: &mut [u64], begin: usize, value: u64, width: u8) -> Option<()> {
    let mask = n_lowest_bits_0_64(width);
    let put = |word, mask: u64, value| word & !mask | value;
    change(words, begin, width, (mask, value & mask), put)
}

/// Adds the 1 bits of a number's lowest bits.
#[inline(always)]
pub(crate) fn init(words: &mut [u64], begin: usize, value: u64, width: u8) -> Option<()> {
    let mask = n_lowest_bits_0_64(width);
    let add = |word, _, value| word | value;
    change(words, begin, width, (mask, value & mask), add)
}

/// Negates the bits at the 1 bits of a number, whose bits are not masked.
#[inline(always)]
pub(crate) fn flip(words: &mut [u64], begin: usize, value: u64, width: u8) -> Option<()> {
    let negate = |word, _, value| word ^ value;
    change(words, begin, width, (0, value), negate)
}
