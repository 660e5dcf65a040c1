//! Monotone integer sequences (Elias-Fano) in borrowed parts.
use crate::errors::{BuildError, ListError, WrongTables};
use crate::ffi::blocks::*;
use crate::ffi::words::bitm_list_counts;
use crate::sys::block::Block;
use crate::sys::faults::unsorted;
use crate::sys::lists::{query_items, query_list};
use crate::sys::memory::{as_u64, as_u64_mut, zeroed};
use crate::sys::{query, OK, UNSORTED};
use alloc::vec::Vec;
use core::{fmt, slice};

type One = unsafe extern "C" fn(*const bitm_sequence, u64, *mut u64) -> u32;
type Many =
    unsafe extern "C" fn(*const bitm_sequence, *const u64, usize, *mut u64, usize, *mut bitm_list_counts) -> u32;

/// The borrowed parts of a sequence, whose lengths fit together. They may hold anything; `check` tests it.
///
/// ```
/// use bitm_proved::{EliasFano, SequenceView};
/// let primes = EliasFano::build(&[2, 3, 5, 7])?;
/// let (len, width, parts) = (primes.len(), primes.view().width(), primes.view().parts());
/// let view = SequenceView::new(len, width, parts)?;
/// assert_eq!((view.checked_get(2), view.checked_get(4), view.check()), (Ok(Some(5)), Ok(None), true));
/// assert_eq!((view.checked_first_at_least(4), view.checked_last_at_most(4)), (Ok(Some(2)), Ok(Some(1))));
/// assert_eq!((view.checked_contains(4), view.items(1, &mut [0; 2])), (Ok(false), &[3, 5][..]));
/// # Ok::<(), Box<dyn std::error::Error>>(())
/// ```
#[derive(Clone, Copy)]
pub struct SequenceView<'a> {
    raw: bitm_sequence,
    /// The block that all of it stands in, where there is one.
    block: Option<&'a [u64]>,
}

// SAFETY: the pointers come from shared slices, and no call has state.
unsafe impl Send for SequenceView<'_> {}
// SAFETY: as for `Send`.
unsafe impl Sync for SequenceView<'_> {}

impl<'a> SequenceView<'a> {
    /// Of parts whose lengths fit together, as the call wrote them that opened a block of that lifetime.
    pub(crate) fn of(raw: bitm_sequence) -> Self {
        SequenceView { raw, block: None }
    }

    /// As the sequence of that block, in which all parts stand.
    pub(crate) fn in_block(mut self, block: &'a [u64]) -> Self {
        self.block = Some(block);
        self
    }

    pub(crate) fn block(&self) -> Option<&'a [u64]> {
        self.block
    }

    /// Of `len` numbers with `width` low bits: low bits, words of the high bits, and the two tables of these words.
    ///
    /// # Errors
    /// `WrongTables` where a length does not fit the others.
    ///
    /// ```
    /// use bitm_proved::{EliasFano, SequenceView, WrongTables};
    /// let primes = EliasFano::build(&[2, 3, 5, 7])?;
    /// let (width, [low, words, upper, lower]) = (primes.view().width(), primes.view().parts());
    /// let view = SequenceView::new(4, width, [low, words, upper, lower])?;
    /// assert!(view.iter().eq([2, 3, 5, 7]));
    /// assert_eq!(SequenceView::new(4, width, [low, &[], upper, lower]).err(), Some(WrongTables));
    /// # Ok::<(), Box<dyn std::error::Error>>(())
    /// ```
    pub fn new(len: usize, width: u64, parts: [&'a [u64]; 4]) -> Result<Self, WrongTables> {
        let [low, words, upper, lower] = parts;
        let raw = bitm_sequence {
            len,
            width,
            low: low.as_ptr(),
            low_len: low.len(),
            words: words.as_ptr(),
            words_len: words.len(),
            upper: upper.as_ptr(),
            upper_len: upper.len(),
            lower: lower.as_ptr(),
            lower_len: lower.len(),
            hints: core::ptr::null(),
            hints_len: 0,
        };
        let view = Self::of(raw);
        // There is no number at index `len`, so an error is one of the lengths.
        view.call(bitm_sequence_get, len as u64)?;
        Ok(view)
    }

    /// All of it as C takes it.
    pub(crate) fn raw(&self) -> bitm_sequence {
        self.raw
    }

    #[inline(always)]
    fn call(&self, call: One, number: u64) -> Result<Option<u64>, WrongTables> {
        // SAFETY: a view, which borrows its slices, and room for the number that a call writes where it returns OK.
        unsafe { query(|out| call(&self.raw, number, out)) }
    }

    /// How many numbers there are.
    ///
    /// ```
    /// assert_eq!(bitm_proved::EliasFano::build(&[2, 3, 3, 7])?.view().len(), 4);
    /// # Ok::<(), bitm_proved::BuildError>(())
    /// ```
    #[inline]
    pub fn len(&self) -> usize {
        self.raw.len
    }

    /// Whether there are none.
    ///
    /// ```
    /// use bitm_proved::EliasFano;
    /// let (none, zero) = (EliasFano::build(&[])?, EliasFano::build(&[0])?);
    /// assert!(none.view().is_empty() && !zero.view().is_empty());
    /// # Ok::<(), bitm_proved::BuildError>(())
    /// ```
    #[inline]
    pub fn is_empty(&self) -> bool {
        self.len() == 0
    }

    /// How many low bits each number has.
    ///
    /// ```
    /// use bitm_proved::EliasFano;
    /// let (dense, sparse) = (EliasFano::build(&[0, 1, 2, 3])?, EliasFano::build(&[0, 9, 20, 32])?);
    /// assert_eq!((dense.view().width(), sparse.view().width()), (0, 3)); // 32 / 4 is 2^3
    /// # Ok::<(), bitm_proved::BuildError>(())
    /// ```
    pub fn width(&self) -> u64 {
        self.raw.width
    }

    /// Low bits, words of the high bits, and the two tables of these words.
    ///
    /// ```
    /// let sequence = bitm_proved::EliasFano::build(&[0, 9, 20, 32])?;
    /// let [low, words, ..] = sequence.view().parts();
    /// assert_eq!(low[0], 0b000_100_001_000); // 3 low bits of each number, the first number's at the right
    /// assert_eq!(words[0], 1 << 0 | 1 << (1 + 1) | 1 << (2 + 2) | 1 << (4 + 3)); // number / 8 + index
    /// # Ok::<(), bitm_proved::BuildError>(())
    /// ```
    pub fn parts(&self) -> [&'a [u64]; 4] {
        let raw = &self.raw;
        [(raw.low, raw.low_len), (raw.words, raw.words_len), (raw.upper, raw.upper_len), (raw.lower, raw.lower_len)]
            // SAFETY: the slices that `new` was given.
            .map(|(at, len)| unsafe { slice::from_raw_parts(at, len) })
    }

    /// Whether the parts form a sequence; and of a block whether it is as it was written, by the checksum of each
    /// section. A file of format version 2 has no checksum of its numbers: there `check` finds only what does not fit
    /// together, and other numbers may pass.
    ///
    /// ```
    /// use bitm_proved::{EliasFano, SequenceView};
    /// let primes = EliasFano::build(&[2, 3, 5, 7])?;
    /// let (width, [low, words, upper, lower]) = (primes.view().width(), primes.view().parts());
    /// let zeros = vec![0; words.len()]; // the length fits, but no number is there
    /// let wrong = SequenceView::new(4, width, [low, &zeros, upper, lower])?;
    /// assert!(primes.view().check() && !wrong.check());
    /// # Ok::<(), Box<dyn std::error::Error>>(())
    /// ```
    pub fn check(&self) -> bool {
        match self.block {
            Some(block) => Block::<bitm_sequence>::is_written(block),
            // SAFETY: a view, which borrows its slices.
            None => unsafe { bitm_sequence_check(&self.raw) == OK },
        }
    }

    /// The number at an index; `None` exactly where there is none.
    ///
    /// ```
    /// let primes = bitm_proved::EliasFano::build(&[2, 3, 5, 7])?;
    /// let view = primes.view();
    /// assert_eq!((view.checked_get(3), view.checked_get(4)), (Ok(Some(7)), Ok(None)));
    /// # Ok::<(), bitm_proved::BuildError>(())
    /// ```
    #[inline]
    pub fn checked_get(&self, index: usize) -> Result<Option<u64>, WrongTables> {
        self.call(bitm_sequence_get, index as u64)
    }

    /// The successor: the least index whose number is at least `value`; `None` exactly where each number is less.
    ///
    /// ```
    /// let primes = bitm_proved::EliasFano::build(&[2, 3, 5, 7])?;
    /// let view = primes.view();
    /// assert_eq!(view.checked_first_at_least(4), Ok(Some(2))); // of 5
    /// assert_eq!(view.checked_first_at_least(8), Ok(None));
    /// # Ok::<(), bitm_proved::BuildError>(())
    /// ```
    #[inline]
    pub fn checked_first_at_least(&self, value: u64) -> Result<Option<usize>, WrongTables> {
        Ok(self.call(bitm_sequence_first_at_least, value)?.map(|it| it as usize))
    }

    /// The predecessor: the greatest index whose number is at most `value`; `None` exactly where each is greater.
    ///
    /// ```
    /// let primes = bitm_proved::EliasFano::build(&[2, 3, 5, 7])?;
    /// let view = primes.view();
    /// assert_eq!(view.checked_last_at_most(4), Ok(Some(1))); // of 3
    /// assert_eq!(view.checked_last_at_most(1), Ok(None));
    /// # Ok::<(), bitm_proved::BuildError>(())
    /// ```
    #[inline]
    pub fn checked_last_at_most(&self, value: u64) -> Result<Option<usize>, WrongTables> {
        Ok(self.call(bitm_sequence_last_at_most, value)?.map(|it| it as usize))
    }

    /// Whether a number is there.
    ///
    /// ```
    /// let primes = bitm_proved::EliasFano::build(&[2, 3, 5, 7])?;
    /// let view = primes.view();
    /// assert_eq!((view.checked_contains(5), view.checked_contains(4)), (Ok(true), Ok(false)));
    /// # Ok::<(), bitm_proved::BuildError>(())
    /// ```
    #[inline]
    pub fn checked_contains(&self, value: u64) -> Result<bool, WrongTables> {
        Ok(self.call(bitm_sequence_contains, value)? == Some(1))
    }

    /// The numbers from an index on, until there is no more room; fewer only where the parts are wrong.
    ///
    /// ```
    /// let primes = bitm_proved::EliasFano::build(&[2, 3, 5, 7])?;
    /// let view = primes.view();
    /// assert_eq!(view.items(1, &mut [0; 2]), [3, 5]);
    /// assert_eq!(view.items(0, &mut [0; 4]), [2, 3, 5, 7]);
    /// # Ok::<(), bitm_proved::BuildError>(())
    /// ```
    pub fn items<'b>(&self, from: usize, out: &'b mut [u64]) -> &'b [u64] {
        let (to, room, mut written) = (out.as_mut_ptr(), out.len(), 0);
        // The lengths of a view are right, and how many were written says whether the parts are.
        // SAFETY: a view, a mutable slice, and room for one number.
        let _ = unsafe { bitm_sequence_items(&self.raw, from as u64, to, room, &mut written) };
        &out[..written as usize]
    }

    /// The numbers at a list of indexes, up to the first past the end; an error where the parts turn out to be wrong.
    ///
    /// ```
    /// let primes = bitm_proved::EliasFano::build(&[2, 3, 5, 7])?;
    /// let view = primes.view();
    /// assert_eq!(view.get_list(&[3, 0, 4, 1], &mut [0; 4]), Ok(&[7, 2][..])); // no number is at 4
    /// # Ok::<(), bitm_proved::BuildError>(())
    /// ```
    pub fn get_list<'b>(&self, indexes: &[usize], out: &'b mut [u64]) -> Result<&'b [u64], ListError> {
        let (from, len) = (as_u64(indexes).as_ptr(), indexes.len());
        query_items(len, out, |to, room, written| {
            // SAFETY: a view, a shared and a mutable slice, which do not overlap, and room for one number.
            unsafe { bitm_sequence_get_list(&self.raw, from, len, to, room, written) }
        })
    }

    fn list(&self, call: Many, values: &[u64], out: &mut [u64]) -> Result<usize, ListError> {
        query_list(values.len(), out, |to, room, counts| {
            // SAFETY: a view, a shared and a mutable slice, which do not overlap, and room for the counts.
            unsafe { call(&self.raw, values.as_ptr(), values.len(), to, room, counts) }
        })
    }

    /// The successors of a list of values; returns how many have none, written as `NO_ANSWER`.
    ///
    /// ```
    /// use bitm_proved::{EliasFano, NO_ANSWER};
    /// let (primes, mut out) = (EliasFano::build(&[2, 3, 5, 7])?, [0; 3]);
    /// assert_eq!(primes.view().first_at_least_list(&[4, 8, 0], &mut out), Ok(1));
    /// assert_eq!(out, [2, NO_ANSWER, 0]);
    /// # Ok::<(), bitm_proved::BuildError>(())
    /// ```
    pub fn first_at_least_list(&self, values: &[u64], out: &mut [usize]) -> Result<usize, ListError> {
        self.list(bitm_sequence_first_at_least_list, values, as_u64_mut(out))
    }

    /// The predecessors of a list of values; returns how many have none, written as `NO_ANSWER`.
    ///
    /// ```
    /// use bitm_proved::{EliasFano, NO_ANSWER};
    /// let (primes, mut out) = (EliasFano::build(&[2, 3, 5, 7])?, [0; 3]);
    /// assert_eq!(primes.view().last_at_most_list(&[4, 1, 9], &mut out), Ok(1));
    /// assert_eq!(out, [1, NO_ANSWER, 3]);
    /// # Ok::<(), bitm_proved::BuildError>(())
    /// ```
    pub fn last_at_most_list(&self, values: &[u64], out: &mut [usize]) -> Result<usize, ListError> {
        self.list(bitm_sequence_last_at_most_list, values, as_u64_mut(out))
    }

    /// Which of a list of values are there: 1 where one is, else 0.
    ///
    /// ```
    /// let (primes, mut out) = (bitm_proved::EliasFano::build(&[2, 3, 5, 7])?, [9; 3]);
    /// assert_eq!(primes.view().contains_list(&[4, 5, 8], &mut out), Ok(()));
    /// assert_eq!(out, [0, 1, 0]);
    /// # Ok::<(), bitm_proved::BuildError>(())
    /// ```
    pub fn contains_list(&self, values: &[u64], out: &mut [u64]) -> Result<(), ListError> {
        self.list(bitm_sequence_contains_list, values, out).map(|_| ())
    }
}

impl SequenceView<'_> {
    pub(crate) fn show(&self, f: &mut fmt::Formatter<'_>, name: &str) -> fmt::Result {
        f.debug_struct(name).field("numbers", &self.len()).finish()
    }
}

impl fmt::Debug for SequenceView<'_> {
    fn fmt(&self, f: &mut fmt::Formatter<'_>) -> fmt::Result {
        self.show(f, "SequenceView")
    }
}

/// The block of a sequence of the numbers.
pub(crate) fn build(items: &[u64]) -> Result<Vec<u64>, BuildError> {
    let too_long = BuildError::TooLong { len: items.len() };
    let (largest, mut size) = (items.last().copied().unwrap_or(0), 0);
    // SAFETY: numbers are passed, and room for one.
    if unsafe { bitm_sequence_block_size(items.len(), largest, &mut size) } != OK {
        return Err(too_long);
    }
    let mut block = zeroed(size as usize)?;
    // SAFETY: a shared and a mutable slice, which do not overlap.
    match unsafe { bitm_sequence_block_build(items.as_ptr(), items.len(), block.as_mut_ptr(), block.len()) } {
        OK => Ok(block),
        UNSORTED => Err(unsorted(items, false).map_or(too_long, |index| {
            let (number, before) = (items[index], items[index - 1]);
            BuildError::NotSorted { index, number, before }
        })),
        _ => Err(too_long),
    }
}
