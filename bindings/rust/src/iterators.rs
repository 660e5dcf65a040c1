//! The positions of the 1 bits or 0 bits of words, and their bits, from either end: Rust, tested and not proved.
use crate::bits::BitAccess;
use crate::sys::reads;
use core::iter::FusedIterator;
use core::ops::Range;
use core::slice;

/// The positions of the 1 bits of words, or of the 0 bits where `B` is false, in increasing order, from either end.
/// Tested, not proved.
///
/// ```
/// use bitm_proved::{BitBIterator, BitOnesIterator, BitZerosIterator};
/// let words = [0b1011, 1];
/// assert!(BitOnesIterator::new(&words).eq([0, 1, 3, 64]));
/// assert!(BitBIterator::<true>::with_range(&words, 1..64).rev().eq([3, 1]));
/// assert!(BitZerosIterator::with_range(&words, 0..6).eq([2, 4, 5]));
/// assert_eq!(BitZerosIterator::new(&words).len(), 124);
/// ```
#[derive(Clone, Debug)]
pub struct BitBIterator<'a, const B: bool> {
    /// The words between the first and the last.
    words: slice::Iter<'a, u64>,
    /// 1 bits for what is still to come of the first word, which begins at a position.
    first: u64,
    first_at: usize,
    /// The same of the last word.
    last: u64,
    last_at: usize,
}

/// The positions of the 1 bits, in increasing order. Tested, not proved.
///
/// ```
/// use bitm_proved::BitOnesIterator;
/// assert!(BitOnesIterator::new(&[0b1011]).rev().eq([3, 1, 0]));
/// ```
pub type BitOnesIterator<'a> = BitBIterator<'a, true>;

/// The positions of the 0 bits, in increasing order. Tested, not proved.
///
/// ```
/// use bitm_proved::BitZerosIterator;
/// assert_eq!(BitZerosIterator::new(&[0b1011]).next(), Some(2));
/// ```
pub type BitZerosIterator<'a> = BitBIterator<'a, false>;

impl<'a, const B: bool> BitBIterator<'a, B> {
    /// Over all words of a slice.
    ///
    /// ```
    /// use bitm_proved::{BitOnesIterator, BitZerosIterator};
    /// assert!(BitOnesIterator::new(&[0b101, 1]).eq([0, 2, 64]));
    /// assert_eq!(BitZerosIterator::new(&[0b101, 1]).next(), Some(1));
    /// ```
    #[inline]
    pub fn new(slice: &'a [u64]) -> Self {
        BitBIterator {
            words: slice.iter(),
            first: 0,
            first_at: 0usize.wrapping_sub(64),
            last: 0,
            last_at: 64 * slice.len(),
        }
    }

    /// Those in a range. Panics where it ends past the end; a range that ends before it begins has none.
    ///
    /// ```
    /// use bitm_proved::{BitOnesIterator, BitZerosIterator};
    /// let words = [0b1011, 1];
    /// assert!(BitOnesIterator::with_range(&words, 1..65).eq([1, 3, 64]));
    /// assert!(BitZerosIterator::with_range(&words, 0..5).eq([2, 4]));
    /// assert_eq!(BitOnesIterator::with_range(&words, 3..3).next(), None);
    /// ```
    #[inline]
    #[track_caller]
    pub fn with_range(slice: &'a [u64], range: Range<usize>) -> Self {
        match Self::try_with_range(slice, range.clone()) {
            Some(made) => made,
            None => past_the_end(range, 64 * slice.len()),
        }
    }

    /// As `with_range`; `None` where the range ends past the end.
    ///
    /// ```
    /// assert!(bitm_proved::BitOnesIterator::try_with_range(&[1], 0..65).is_none());
    /// ```
    pub fn try_with_range(slice: &'a [u64], range: Range<usize>) -> Option<Self> {
        if range.end > 64 * slice.len() {
            return None;
        }
        Some(if range.is_empty() { Self::new(&[]) } else { Self::inside(slice, range) })
    }

    /// Those in a range that is inside and not empty.
    fn inside(slice: &'a [u64], range: Range<usize>) -> Self {
        let (begin, end) = (range.start / 64, range.end.div_ceil(64));
        let (from, to) = (range.start % 64, (64 - range.end % 64) % 64);
        let first = Self::kind(slice[begin]) >> from << from;
        if begin + 1 == end {
            return BitBIterator {
                words: [].iter(),
                first: first << to >> to,
                first_at: 64 * begin,
                last: 0,
                last_at: 64 * end,
            };
        }
        BitBIterator {
            words: slice[begin + 1..end - 1].iter(),
            first,
            first_at: 64 * begin,
            last: Self::kind(slice[end - 1]) << to >> to,
            last_at: 64 * (end - 1),
        }
    }

    /// The word with 1 bits for the bits of the kind.
    #[inline(always)]
    fn kind(word: u64) -> u64 {
        if B {
            word
        } else {
            !word
        }
    }

    /// The next bit of the last word, from which the other end has taken some.
    #[cold]
    fn next_of_last(&mut self) -> Option<usize> {
        if self.last == 0 {
            return None;
        }
        let bit = self.last.trailing_zeros() as usize;
        self.last &= self.last - 1;
        Some(self.last_at + bit)
    }

    /// The last bit of the first word, from which the other end has taken some.
    #[cold]
    fn last_of_first(&mut self) -> Option<usize> {
        if self.first == 0 {
            return None;
        }
        let bit = 63 - self.first.leading_zeros() as usize;
        self.first &= !(1 << bit);
        Some(self.first_at + bit)
    }
}

/// A word without its `n` lowest 1 bits.
fn without_lowest(word: u64, n: usize) -> u64 {
    (0..n.min(64)).fold(word, |rest, _| rest & rest.wrapping_sub(1))
}

#[cold]
#[track_caller]
pub(crate) fn past_the_end(range: Range<usize>, bits: usize) -> ! {
    panic!("the range {range:?} ends past {bits} bits")
}

impl<const B: bool> Iterator for BitBIterator<'_, B> {
    type Item = usize;

    #[inline]
    fn next(&mut self) -> Option<usize> {
        while self.first == 0 {
            let Some(word) = self.words.next() else {
                return self.next_of_last();
            };
            self.first = Self::kind(*word);
            self.first_at = self.first_at.wrapping_add(64);
        }
        let bit = self.first.trailing_zeros() as usize;
        self.first &= self.first - 1;
        Some(self.first_at + bit)
    }

    /// Passes over whole words by their number of bits.
    fn nth(&mut self, mut n: usize) -> Option<usize> {
        while n >= self.first.count_ones() as usize {
            n -= self.first.count_ones() as usize;
            self.first = 0;
            let Some(word) = self.words.next() else {
                self.last = without_lowest(self.last, n);
                return self.next_of_last();
            };
            self.first = Self::kind(*word);
            self.first_at = self.first_at.wrapping_add(64);
        }
        self.first = without_lowest(self.first, n);
        self.next()
    }

    #[inline]
    fn size_hint(&self) -> (usize, Option<usize>) {
        let len = self.len();
        (len, Some(len))
    }

    #[inline]
    fn count(self) -> usize {
        self.len()
    }
}

impl<const B: bool> DoubleEndedIterator for BitBIterator<'_, B> {
    #[inline]
    fn next_back(&mut self) -> Option<usize> {
        while self.last == 0 {
            let Some(word) = self.words.next_back() else {
                return self.last_of_first();
            };
            self.last = Self::kind(*word);
            self.last_at -= 64;
        }
        let bit = 63 - self.last.leading_zeros() as usize;
        self.last &= !(1 << bit);
        Some(self.last_at + bit)
    }
}

impl<const B: bool> ExactSizeIterator for BitBIterator<'_, B> {
    /// Counts the bits that are still to come.
    fn len(&self) -> usize {
        let between = self.words.as_slice();
        let ends = self.first.count_ones() + self.last.count_ones();
        ends as usize + reads::count(between, 64 * between.len(), B)
    }
}

impl<const B: bool> FusedIterator for BitBIterator<'_, B> {}

/// The bits of a range of words, from either end. Tested, not proved.
///
/// ```
/// use bitm_proved::BitIterator;
/// let mut bits = BitIterator::with_range(&[0b1011], 1..4);
/// assert_eq!((bits.len(), bits.next(), bits.next_back(), bits.bit_range()), (3, Some(true), Some(true), &(2..3)));
/// assert_eq!((bits.bit_vec(), BitIterator::new(&[1]).len()), (&[0b1011][..], 64));
/// ```
#[derive(Clone, Debug)]
pub struct BitIterator<'bv> {
    bit_vec: &'bv [u64],
    bit_range: Range<usize>,
}

impl<'bv> BitIterator<'bv> {
    /// All bits.
    ///
    /// ```
    /// let bits = bitm_proved::BitIterator::new(&[0b1011]);
    /// assert_eq!(bits.len(), 64);
    /// assert!(bits.take(5).eq([true, true, false, true, false]));
    /// ```
    #[inline]
    pub fn new(bit_vec: &'bv [u64]) -> Self {
        Self::with_range(bit_vec, 0..64 * bit_vec.len())
    }

    /// As `with_range`.
    ///
    /// # Safety
    /// The range ends inside. (This is tested all the same.)
    ///
    /// ```
    /// // SAFETY: there are 64 bits.
    /// assert_eq!(unsafe { bitm_proved::BitIterator::with_range_unchecked(&[3], 0..3) }.filter(|it| *it).count(), 2);
    /// ```
    #[track_caller]
    pub unsafe fn with_range_unchecked(bit_vec: &'bv [u64], bit_range: Range<usize>) -> Self {
        Self::with_range(bit_vec, bit_range)
    }

    /// The bits of a range. Panics where it ends past the end.
    ///
    /// ```
    /// use bitm_proved::BitIterator;
    /// assert!(BitIterator::with_range(&[0b1011], 1..4).eq([true, false, true]));
    /// assert!(BitIterator::with_range(&[0b1011], 0..3).rev().eq([false, true, true]));
    /// ```
    #[inline]
    #[track_caller]
    pub fn with_range(bit_vec: &'bv [u64], bit_range: Range<usize>) -> Self {
        let bits = 64 * bit_vec.len();
        if bit_range.end > bits {
            past_the_end(bit_range, bits)
        }
        BitIterator { bit_vec, bit_range }
    }

    /// As `with_range`; `None` where the range ends past the end.
    ///
    /// ```
    /// assert!(bitm_proved::BitIterator::try_with_range(&[1], 0..65).is_none());
    /// ```
    #[inline]
    pub fn try_with_range(bit_vec: &'bv [u64], bit_range: Range<usize>) -> Option<Self> {
        (bit_range.end <= 64 * bit_vec.len()).then_some(BitIterator { bit_vec, bit_range })
    }

    /// The range that is still to come.
    ///
    /// ```
    /// let mut bits = bitm_proved::BitIterator::with_range(&[0b1011], 10..20);
    /// assert_eq!((bits.next(), bits.next_back()), (Some(false), Some(false)));
    /// assert_eq!(bits.bit_range(), &(11..19));
    /// ```
    #[inline]
    pub fn bit_range(&self) -> &Range<usize> {
        &self.bit_range
    }

    /// The words.
    ///
    /// ```
    /// let bits = bitm_proved::BitIterator::with_range(&[7, 1], 3..9);
    /// assert_eq!(bits.bit_vec(), [7, 1]);
    /// assert_eq!(bits.len(), 6);
    /// ```
    #[inline]
    pub fn bit_vec(&self) -> &'bv [u64] {
        self.bit_vec
    }
}

impl Iterator for BitIterator<'_> {
    type Item = bool;

    #[inline]
    fn next(&mut self) -> Option<bool> {
        let position = self.bit_range.next()?;
        Some(self.bit_vec.get_bit(position))
    }

    #[inline]
    fn nth(&mut self, n: usize) -> Option<bool> {
        let position = self.bit_range.nth(n)?;
        Some(self.bit_vec.get_bit(position))
    }

    #[inline]
    fn size_hint(&self) -> (usize, Option<usize>) {
        self.bit_range.size_hint()
    }
}

impl DoubleEndedIterator for BitIterator<'_> {
    #[inline]
    fn next_back(&mut self) -> Option<bool> {
        let position = self.bit_range.next_back()?;
        Some(self.bit_vec.get_bit(position))
    }

    #[inline]
    fn nth_back(&mut self, n: usize) -> Option<bool> {
        let position = self.bit_range.nth_back(n)?;
        Some(self.bit_vec.get_bit(position))
    }
}

impl ExactSizeIterator for BitIterator<'_> {}
impl FusedIterator for BitIterator<'_> {}
