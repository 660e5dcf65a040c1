//! The numbers of a list in any order: queries that panic where its block is wrong.
use crate::answers::{answers, by_view};
use crate::errors::{ListError, WrongTables};
use crate::sys::matrix::owned::WaveletMatrix;
use crate::sys::matrix::WaveletMatrixView;
use core::ops::Range;

answers! { WaveletMatrixView, WaveletMatrix;
    /// The number at an index; `None` exactly where there is none. One proved call.
    ///
    /// ```
    /// let numbers = bitm_proved::WaveletMatrix::build(&[3, 1, 4, 1, 5, 1])?;
    /// assert_eq!((numbers.get(0), numbers.get(4), numbers.get(6)), (Some(3), Some(5), None));
    /// # Ok::<(), bitm_proved::BuildError>(())
    /// ```
    pub fn get(&self, index: usize) -> Option<u64> = checked_get;

    /// How many of the numbers before an index are this one; `None` exactly where the index is past the end.
    /// One proved call.
    ///
    /// ```
    /// let numbers = bitm_proved::WaveletMatrix::build(&[3, 1, 4, 1, 5, 1])?;
    /// assert_eq!((numbers.rank(1, 4), numbers.rank(1, 6), numbers.rank(1, 7)), (Some(2), Some(3), None));
    /// # Ok::<(), bitm_proved::BuildError>(())
    /// ```
    pub fn rank(&self, number: u64, index: usize) -> Option<usize> = checked_rank;

    /// The index of this number with exactly `rank` such numbers before it; `None` where there are no more than
    /// `rank`. One proved call.
    ///
    /// ```
    /// let numbers = bitm_proved::WaveletMatrix::build(&[3, 1, 4, 1, 5, 1])?;
    /// assert_eq!((numbers.select(1, 2), numbers.select(1, 3)), (Some(5), None));
    /// # Ok::<(), bitm_proved::BuildError>(())
    /// ```
    pub fn select(&self, number: u64, rank: usize) -> Option<usize> = checked_select;

    /// How many numbers of a range are less than `bound`; `None` exactly where there is no such range. One
    /// proved call.
    ///
    /// ```
    /// let numbers = bitm_proved::WaveletMatrix::build(&[3, 1, 4, 1, 5, 1])?;
    /// assert_eq!(numbers.count_less(1..5, 4), Some(2)); // of 1, 4, 1, 5
    /// assert_eq!(numbers.count_less(1..7, 4), None);
    /// # Ok::<(), bitm_proved::BuildError>(())
    /// ```
    pub fn count_less(&self, range: Range<usize>, bound: u64) -> Option<usize> = checked_count_less;

    /// The number of a range that would stand at index `k` if it were sorted: the least for `k` = 0. `None`
    /// exactly where there is no such range, or it has no more than `k` numbers. One proved call.
    ///
    /// ```
    /// let numbers = bitm_proved::WaveletMatrix::build(&[3, 1, 4, 1, 5, 1])?;
    /// assert_eq!((numbers.quantile(1..5, 2), numbers.quantile(1..5, 4)), (Some(4), None)); // of 1, 1, 4, 5
    /// # Ok::<(), bitm_proved::BuildError>(())
    /// ```
    pub fn quantile(&self, range: Range<usize>, k: usize) -> Option<u64> = checked_quantile;

    /// The least number of a range that is at least `bound`; `None` where there is none, or no such range. One
    /// proved call.
    ///
    /// ```
    /// let numbers = bitm_proved::WaveletMatrix::build(&[3, 1, 4, 1, 5, 1])?;
    /// assert_eq!((numbers.next_value(1..5, 2), numbers.next_value(1..5, 6)), (Some(4), None));
    /// # Ok::<(), bitm_proved::BuildError>(())
    /// ```
    pub fn next_value(&self, range: Range<usize>, bound: u64) -> Option<u64> = checked_next_value;

    /// The greatest number of a range that is less than `bound`; `None` where there is none, or no such range.
    /// One proved call.
    ///
    /// ```
    /// let numbers = bitm_proved::WaveletMatrix::build(&[3, 1, 4, 1, 5, 1])?;
    /// assert_eq!((numbers.previous_value(1..5, 4), numbers.previous_value(1..5, 1)), (Some(1), None));
    /// # Ok::<(), bitm_proved::BuildError>(())
    /// ```
    pub fn previous_value(&self, range: Range<usize>, bound: u64) -> Option<u64> = checked_previous_value;

    /// How often a number is in the list. One proved call.
    ///
    /// ```
    /// let numbers = bitm_proved::WaveletMatrix::build(&[3, 1, 4, 1, 5, 1])?;
    /// assert_eq!((numbers.count(1), numbers.count(2)), (3, 0));
    /// # Ok::<(), bitm_proved::BuildError>(())
    /// ```
    pub fn count(&self, number: u64) -> usize = count_of;

    /// Whether a number is in the list. One proved call.
    ///
    /// ```
    /// let numbers = bitm_proved::WaveletMatrix::build(&[3, 1, 4, 1, 5, 1])?;
    /// assert!(numbers.contains(5) && !numbers.contains(2));
    /// # Ok::<(), bitm_proved::BuildError>(())
    /// ```
    pub fn contains(&self, number: u64) -> bool = has;
}

by_view! { WaveletMatrix;
    /// How many numbers there are.
    ///
    /// ```
    /// assert_eq!(bitm_proved::WaveletMatrix::build(&[3, 1, 4])?.len(), 3);
    /// # Ok::<(), bitm_proved::BuildError>(())
    /// ```
    pub fn len(&self) -> usize;

    /// Whether there are none.
    ///
    /// ```
    /// use bitm_proved::WaveletMatrix;
    /// assert!(WaveletMatrix::build(&[])?.is_empty() && !WaveletMatrix::build(&[0])?.is_empty());
    /// # Ok::<(), bitm_proved::BuildError>(())
    /// ```
    pub fn is_empty(&self) -> bool;

    /// How many bits each number has at most.
    ///
    /// ```
    /// use bitm_proved::WaveletMatrix;
    /// assert_eq!((WaveletMatrix::build(&[3, 1, 4])?.width(), WaveletMatrix::build(&[0])?.width()), (3, 1));
    /// # Ok::<(), bitm_proved::BuildError>(())
    /// ```
    pub fn width(&self) -> u32;

    /// The words of the block, which is also the file of this list.
    ///
    /// ```
    /// use bitm_proved::WaveletMatrix;
    /// let made = WaveletMatrix::build(&[3, 1, 4])?;
    /// assert_eq!(WaveletMatrix::from_words(made.block())?.block(), made.block());
    /// # Ok::<(), Box<dyn std::error::Error>>(())
    /// ```
    pub fn block(&self) -> &[u64];

    /// Whether the block is as it was written and holds such a list: looks at all of it, twice.
    ///
    /// ```
    /// assert!(bitm_proved::WaveletMatrix::build(&[3, 1, 4])?.check());
    /// # Ok::<(), bitm_proved::BuildError>(())
    /// ```
    pub fn check(&self) -> bool;

    /// Writes the distinct numbers of a range that are at least `least`, ascending, and how often each is there, as
    /// many as fit; returns how many it wrote. Go on at the last one plus 1. `None` exactly where there is no such
    /// range. Where the tables are wrong, items may have been written.
    ///
    /// ```
    /// let made = bitm_proved::WaveletMatrix::build(&[3, 1, 4, 1, 5, 1])?;
    /// let (mut numbers, mut counts) = ([0; 2], [0; 2]);
    /// assert_eq!(made.distinct(0..6, 0, &mut numbers, &mut counts), Ok(Some(2)));
    /// assert_eq!((numbers, counts), ([1, 3], [3, 1]));
    /// # Ok::<(), bitm_proved::BuildError>(())
    /// ```
    pub fn distinct(
        &self, range: Range<usize>, least: u64, numbers: &mut [u64], counts: &mut [usize]
    ) -> Result<Option<usize>, ListError>;

    /// Writes the most frequent numbers of a range, the most frequent first and of equally frequent ones the least, and
    /// how often each is there, as many as fit; returns how many it wrote. `None` exactly where there is no such range.
    /// Where the tables are wrong, items may have been written.
    ///
    /// ```
    /// let made = bitm_proved::WaveletMatrix::build(&[3, 1, 4, 1, 5, 1])?;
    /// let (mut numbers, mut counts) = ([0; 2], [0; 2]);
    /// assert_eq!(made.top(0..6, &mut numbers, &mut counts), Ok(Some(2)));
    /// assert_eq!((numbers, counts), ([1, 3], [3, 1]));
    /// # Ok::<(), bitm_proved::BuildError>(())
    /// ```
    pub fn top(
        &self, range: Range<usize>, numbers: &mut [u64], counts: &mut [usize]
    ) -> Result<Option<usize>, ListError>;

    /// Writes the numbers that are in both ranges and at least `least`, each once, ascending, as many as fit; returns
    /// how many it wrote. Go on at the last one plus 1. `None` exactly where there is no such range. Takes at most as
    /// many turns as the first range has numbers, so give the shorter one first. Where the tables are wrong, numbers
    /// may have been written.
    ///
    /// ```
    /// let made = bitm_proved::WaveletMatrix::build(&[3, 1, 4, 1, 5, 1])?;
    /// let mut numbers = [0; 2];
    /// assert_eq!(made.intersect(0..3, 3..6, 0, &mut numbers), Ok(Some(1)));
    /// assert_eq!(numbers[0], 1);
    /// # Ok::<(), Box<dyn std::error::Error>>(())
    /// ```
    pub fn intersect(
        &self, first: Range<usize>, second: Range<usize>, least: u64, numbers: &mut [u64]
    ) -> Result<Option<usize>, WrongTables>;

    /// The numbers at a list of indices, up to the first past the end; an error where the block turns out to be wrong.
    ///
    /// ```
    /// let numbers = bitm_proved::WaveletMatrix::build(&[3, 1, 4])?;
    /// assert_eq!(numbers.get_list(&[2, 0, 3, 1], &mut [0; 4]), Ok(&[4, 3][..])); // no number is at 3
    /// # Ok::<(), bitm_proved::BuildError>(())
    /// ```
    pub fn get_list<'b>(&self, indices: &[usize], out: &'b mut [u64]) -> Result<&'b [u64], ListError>;

    /// How many of the numbers before `indices[i]` are `numbers[i]`; returns of how many there is no such index,
    /// written as `NO_ANSWER`.
    ///
    /// ```
    /// use bitm_proved::{WaveletMatrix, NO_ANSWER};
    /// let (numbers, mut out) = (WaveletMatrix::build(&[3, 1, 4, 1, 5, 1])?, [9; 3]);
    /// assert_eq!((numbers.rank_list(&[1, 5, 2], &[4, 6, 7], &mut out), out), (Ok(1), [2, 1, NO_ANSWER]));
    /// # Ok::<(), bitm_proved::BuildError>(())
    /// ```
    pub fn rank_list(&self, numbers: &[u64], indices: &[usize], out: &mut [usize]) -> Result<usize, ListError>;

    /// The index of `numbers[i]` with `ranks[i]` such numbers before it; returns how many do not exist, written as
    /// `NO_ANSWER`.
    ///
    /// ```
    /// use bitm_proved::{WaveletMatrix, NO_ANSWER};
    /// let (numbers, mut out) = (WaveletMatrix::build(&[3, 1, 4, 1, 5, 1])?, [9; 3]);
    /// assert_eq!((numbers.select_list(&[1, 5, 2], &[2, 0, 0], &mut out), out), (Ok(1), [5, 4, NO_ANSWER]));
    /// # Ok::<(), bitm_proved::BuildError>(())
    /// ```
    pub fn select_list(&self, numbers: &[u64], ranks: &[usize], out: &mut [usize]) -> Result<usize, ListError>;
}
