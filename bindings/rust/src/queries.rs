//! The queries of every index beside rank and selection.
use crate::errors::{sure, ListError, StoredError, WrongTables};
use crate::iterators::{past_the_end, BitIterator, BitOnesIterator, BitZerosIterator};
use crate::sys::view::IndexView;
use alloc::vec::Vec;
use core::cmp::Ordering;
use core::ops::Range;

/// In a list of answers: there is no such position or number.
///
/// ```
/// use bitm_proved::{Index, Queries, NO_ANSWER};
/// let mut out = [0; 2];
/// Index::build([0b111u64]).select_list(&[2, 3], &mut out)?; // there is no fourth 1 bit
/// assert_eq!(out, [2, NO_ANSWER]);
/// # Ok::<(), bitm_proved::ListError>(())
/// ```
pub const NO_ANSWER: usize = usize::MAX;

/// In a list of answers: the tables do not match the words.
///
/// ```
/// use bitm_proved::{IndexView, ListError, Queries, WRONG_TABLES};
/// let (words, wrong, mut out) = ([0u64], [u64::MAX], [0]);
/// let bits = IndexView::new(&words, 64, &words, &wrong)?;
/// assert_eq!((bits.rank_list(&[64], &mut out), out), (Err(ListError::WrongTables { wrong: 1 }), [WRONG_TABLES]));
/// # Ok::<(), bitm_proved::WrongTables>(())
/// ```
pub const WRONG_TABLES: usize = usize::MAX - 1;

/// The queries of every index beside rank and selection. Each is one proved call; iterators go over the words
/// alone, and are tested, not proved.
///
/// A `checked_` form returns an error where the tables turn out not to match the words; the others panic then.
///
/// ```
/// use bitm_proved::{Index, Queries};
/// let bits = Index::build(vec![0b1011_0100u64, 1]); // 1 bits at 2, 4, 5, 7 and 64
/// assert_eq!((bits.count_ones(), bits.next_one(3), bits.previous_zero(5)), (5, Some(4), Some(3)));
/// assert!(bits.ones_in(5..100).eq([5, 7, 64]));
/// ```
pub trait Queries {
    /// A view of words, tables and samples.
    ///
    /// ```
    /// use bitm_proved::{ArrayWithRank101111, Queries, Rank};
    /// let bits: ArrayWithRank101111 = vec![0b1011, 7].into_boxed_slice().into();
    /// let view = bits.view(); // once, for many queries
    /// assert_eq!([2, 64, 128].map(|position| view.rank(position)), [2, 3, 6]);
    /// ```
    fn view(&self) -> IndexView<'_>;

    #[doc(hidden)]
    #[inline(always)]
    fn query<R>(&self, with: impl FnOnce(&IndexView<'_>) -> R) -> R {
        with(&self.view())
    }

    /// How many of the first `position` bits are 1; `None` exactly where there are fewer bits.
    ///
    /// ```
    /// use bitm_proved::{Index, Queries};
    /// let bits = Index::build([0b1011u64]);
    /// assert_eq!((bits.checked_rank(3), bits.checked_rank(65)), (Ok(Some(2)), Ok(None)));
    /// ```
    #[inline]
    fn checked_rank(&self, position: usize) -> Result<Option<usize>, WrongTables> {
        self.query(|view| view.rank_of(true, position))
    }

    /// How many of the first `position` bits are 0; `None` exactly where there are fewer bits.
    ///
    /// ```
    /// use bitm_proved::{Index, Queries};
    /// let bits = Index::build([0b1011u64]);
    /// assert_eq!((bits.checked_rank0(3), bits.checked_rank0(65)), (Ok(Some(1)), Ok(None)));
    /// ```
    #[inline]
    fn checked_rank0(&self, position: usize) -> Result<Option<usize>, WrongTables> {
        self.query(|view| view.rank_of(false, position))
    }

    /// The position of the 1 bit with a rank; `None` where there is none.
    ///
    /// ```
    /// use bitm_proved::{Index, Queries};
    /// let bits = Index::build([0b1011u64]);
    /// assert_eq!((bits.checked_select(2), bits.checked_select(3)), (Ok(Some(3)), Ok(None)));
    /// ```
    #[inline]
    fn checked_select(&self, rank: usize) -> Result<Option<usize>, WrongTables> {
        self.query(|view| view.select_of(true, rank))
    }

    /// The position of the 0 bit with a rank; `None` where there is none.
    ///
    /// ```
    /// use bitm_proved::{Index, Queries};
    /// let bits = Index::build([0b1011u64]);
    /// assert_eq!((bits.checked_select0(1), bits.checked_select0(61)), (Ok(Some(4)), Ok(None)));
    /// ```
    #[inline]
    fn checked_select0(&self, rank: usize) -> Result<Option<usize>, WrongTables> {
        self.query(|view| view.select_of(false, rank))
    }

    /// The position of the first 1 bit, or 0 bit, at or after `from`; `None` where there is none.
    ///
    /// ```
    /// use bitm_proved::{Index, Queries};
    /// let bits = Index::build([0b1011u64]);
    /// assert_eq!((bits.checked_next(true, 2), bits.checked_next(false, 3)), (Ok(Some(3)), Ok(Some(4))));
    /// ```
    #[inline]
    fn checked_next(&self, one: bool, from: usize) -> Result<Option<usize>, WrongTables> {
        self.query(|view| view.next_of(one, from))
    }

    /// The position of the last 1 bit, or 0 bit, at or before `from`; `None` where there is none.
    ///
    /// ```
    /// use bitm_proved::{Index, Queries};
    /// let bits = Index::build([0b1011u64]);
    /// assert_eq!((bits.checked_previous(true, 9), bits.checked_previous(false, 1)), (Ok(Some(3)), Ok(None)));
    /// ```
    #[inline]
    fn checked_previous(&self, one: bool, from: usize) -> Result<Option<usize>, WrongTables> {
        self.query(|view| view.previous_of(one, from))
    }

    /// The position of the first 1 bit at or after `from`; `None` where there is none.
    ///
    /// ```
    /// use bitm_proved::{Index, Queries};
    /// let bits = Index::build([0b1011u64]);
    /// assert_eq!([1, 2, 4].map(|from| bits.next_one(from)), [Some(1), Some(3), None]);
    /// ```
    #[inline]
    #[track_caller]
    fn next_one(&self, from: usize) -> Option<usize> {
        sure(self.checked_next(true, from))
    }

    /// The position of the first 0 bit at or after `from`; `None` where there is none.
    ///
    /// ```
    /// use bitm_proved::{Index, Queries};
    /// let bits = Index::build([0b1011u64]);
    /// assert_eq!([0, 3, 64].map(|from| bits.next_zero(from)), [Some(2), Some(4), None]);
    /// ```
    #[inline]
    #[track_caller]
    fn next_zero(&self, from: usize) -> Option<usize> {
        sure(self.checked_next(false, from))
    }

    /// The position of the last 1 bit at or before `from`, which may be past the end; `None` where there is none.
    ///
    /// ```
    /// use bitm_proved::{Index, Queries};
    /// let bits = Index::build([0b1010u64]);
    /// assert_eq!([0, 2, 999].map(|from| bits.previous_one(from)), [None, Some(1), Some(3)]);
    /// ```
    #[inline]
    #[track_caller]
    fn previous_one(&self, from: usize) -> Option<usize> {
        sure(self.checked_previous(true, from))
    }

    /// The position of the last 0 bit at or before `from`, which may be past the end; `None` where there is none.
    ///
    /// ```
    /// use bitm_proved::{Index, Queries};
    /// let bits = Index::build([0b1011u64]);
    /// assert_eq!([1, 3, 999].map(|from| bits.previous_zero(from)), [None, Some(2), Some(63)]);
    /// ```
    #[inline]
    #[track_caller]
    fn previous_zero(&self, from: usize) -> Option<usize> {
        sure(self.checked_previous(false, from))
    }

    /// How many 1 bits there are. The tables are not read.
    ///
    /// ```
    /// use bitm_proved::{Index, Queries};
    /// assert_eq!(Index::build([0b1011u64, 1]).count_ones(), 4);
    /// ```
    fn count_ones(&self) -> usize {
        self.query(|view| view.count_of(true))
    }

    /// How many 0 bits there are. The tables are not read.
    ///
    /// ```
    /// use bitm_proved::{Index, Queries};
    /// assert_eq!(Index::build([0b1011u64, 1]).count_zeros(), 124); // of 128 bits
    /// ```
    fn count_zeros(&self) -> usize {
        self.query(|view| view.count_of(false))
    }

    /// Ranks of a list of positions; returns how many have none, written as `NO_ANSWER`.
    ///
    /// ```
    /// use bitm_proved::{Index, Queries, NO_ANSWER};
    /// let (bits, mut ranks) = (Index::build([0b1011u64]), [0; 3]);
    /// assert_eq!(bits.rank_list(&[2, 64, 65], &mut ranks), Ok(1));
    /// assert_eq!(ranks, [2, 3, NO_ANSWER]);
    /// ```
    fn rank_list(&self, positions: &[usize], out: &mut [usize]) -> Result<usize, ListError> {
        self.query(|view| view.list(false, true, positions, out))
    }

    /// As `rank_list`, of 0 bits.
    ///
    /// ```
    /// use bitm_proved::{Index, Queries};
    /// let (bits, mut ranks) = (Index::build([0b1011u64]), [0; 2]);
    /// assert_eq!(bits.rank0_list(&[3, 64], &mut ranks), Ok(0));
    /// assert_eq!(ranks, [1, 61]);
    /// ```
    fn rank0_list(&self, positions: &[usize], out: &mut [usize]) -> Result<usize, ListError> {
        self.query(|view| view.list(false, false, positions, out))
    }

    /// Positions of the 1 bits with the ranks of a list; returns how many have none, written as `NO_ANSWER`.
    ///
    /// ```
    /// use bitm_proved::{Index, Queries, NO_ANSWER};
    /// let (bits, mut positions) = (Index::build([0b1011u64]), [0; 3]);
    /// assert_eq!(bits.select_list(&[2, 0, 3], &mut positions), Ok(1));
    /// assert_eq!(positions, [3, 0, NO_ANSWER]);
    /// ```
    fn select_list(&self, ranks: &[usize], out: &mut [usize]) -> Result<usize, ListError> {
        self.query(|view| view.list(true, true, ranks, out))
    }

    /// As `select_list`, of 0 bits.
    ///
    /// ```
    /// use bitm_proved::{Index, Queries};
    /// let (bits, mut positions) = (Index::build([0b1011u64]), [0; 2]);
    /// assert_eq!(bits.select0_list(&[0, 1], &mut positions), Ok(0));
    /// assert_eq!(positions, [2, 4]);
    /// ```
    fn select0_list(&self, ranks: &[usize], out: &mut [usize]) -> Result<usize, ListError> {
        self.query(|view| view.list(true, false, ranks, out))
    }

    /// The positions of the 1 bits, from either end.
    ///
    /// ```
    /// use bitm_proved::{Index, Queries};
    /// let bits = Index::build([0b1011u64]);
    /// assert!(bits.ones().eq([0, 1, 3]) && bits.ones().rev().eq([3, 1, 0]));
    /// ```
    fn ones(&self) -> BitOnesIterator<'_> {
        let view = self.view();
        BitOnesIterator::with_range(view.words(), 0..view.len())
    }

    /// The positions of the 0 bits, from either end.
    ///
    /// ```
    /// use bitm_proved::{Index, Queries};
    /// assert_eq!(Index::build([0b1011u64]).zeros().take(3).collect::<Vec<_>>(), [2, 4, 5]);
    /// ```
    fn zeros(&self) -> BitZerosIterator<'_> {
        let view = self.view();
        BitZerosIterator::with_range(view.words(), 0..view.len())
    }

    /// The positions of the 1 bits in a range. Panics where it ends past the end.
    ///
    /// ```
    /// use bitm_proved::{Index, Queries};
    /// assert!(Index::build([0b1011u64]).ones_in(1..4).eq([1, 3]));
    /// ```
    #[track_caller]
    fn ones_in(&self, range: Range<usize>) -> BitOnesIterator<'_> {
        match self.try_ones_in(range.clone()) {
            Some(ones) => ones,
            None => past_the_end(range, self.view().len()),
        }
    }

    /// As `ones_in`; `None` where the range ends past the end.
    ///
    /// ```
    /// use bitm_proved::{Index, Queries};
    /// let bits = Index::build([0b1011u64]);
    /// assert!(bits.try_ones_in(2..64).is_some_and(|ones| ones.eq([3])) && bits.try_ones_in(2..65).is_none());
    /// ```
    fn try_ones_in(&self, range: Range<usize>) -> Option<BitOnesIterator<'_>> {
        let view = self.view();
        (range.end <= view.len()).then(|| BitOnesIterator::with_range(view.words(), range))
    }

    /// The positions of the 0 bits in a range. Panics where it ends past the end.
    ///
    /// ```
    /// use bitm_proved::{Index, Queries};
    /// assert!(Index::build([0b1011u64]).zeros_in(0..6).eq([2, 4, 5]));
    /// ```
    #[track_caller]
    fn zeros_in(&self, range: Range<usize>) -> BitZerosIterator<'_> {
        match self.try_zeros_in(range.clone()) {
            Some(zeros) => zeros,
            None => past_the_end(range, self.view().len()),
        }
    }

    /// As `zeros_in`; `None` where the range ends past the end.
    ///
    /// ```
    /// use bitm_proved::{Index, Queries};
    /// let bits = Index::build([0b1011u64]);
    /// assert!(bits.try_zeros_in(0..64).is_some() && bits.try_zeros_in(0..65).is_none());
    /// ```
    fn try_zeros_in(&self, range: Range<usize>) -> Option<BitZerosIterator<'_>> {
        let view = self.view();
        (range.end <= view.len()).then(|| BitZerosIterator::with_range(view.words(), range))
    }

    /// The bits, from either end.
    ///
    /// ```
    /// use bitm_proved::{Index, Queries};
    /// let index = Index::build([0b1011u64]);
    /// assert_eq!(index.bits().len(), 64);
    /// assert!(index.bits().take(4).eq([true, true, false, true]));
    /// ```
    fn bits(&self) -> BitIterator<'_> {
        let view = self.view();
        BitIterator::with_range(view.words(), 0..view.len())
    }

    /// The words of a file of the first `bits_len` bits: a block, with samples where the index has some. Tables and
    /// samples of fewer bits are built anew.
    ///
    /// # Errors
    /// `WrongLength` where there are fewer bits, `WrongTables` where all bits are stored and the tables do not match
    /// the words, and `NoMemory` where memory is refused.
    ///
    /// ```
    /// use bitm_proved::{Index, Queries, Rank, StoredError};
    /// let file = Index::build([0b1011u64]).to_stored(3)?; // of 64 bits the first 3
    /// let read = Index::from_words(file)?;
    /// assert_eq!((read.rank(3), read.try_rank(4)), (2, None));
    /// assert_eq!(read.to_stored(4), Err(StoredError::WrongLength));
    /// # Ok::<(), StoredError>(())
    /// ```
    fn to_stored(&self, bits_len: usize) -> Result<Vec<u64>, StoredError> {
        let view = self.view();
        match bits_len.cmp(&view.len()) {
            Ordering::Less => view.block_of(bits_len),
            Ordering::Equal => view.to_words(),
            Ordering::Greater => Err(StoredError::WrongLength),
        }
    }
}
