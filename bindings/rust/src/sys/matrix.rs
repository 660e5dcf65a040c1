//! Lists of numbers in any order (wavelet matrices), each in one block of memory: views of borrowed blocks.
pub(crate) mod owned;

use crate::errors::{BuildError, ListError, StoredError, WrongTables};
use crate::ffi::blocks::*;
use crate::ffi::words::bitm_list_counts;
use crate::sys::block::{views, Block, Parts};
use crate::sys::faults::wider;
use crate::sys::levels::Progress;
use crate::sys::lists::{pairs, query_items, query_list};
use crate::sys::memory::{as_u64, as_u64_mut, words_of, zeroed};
use crate::sys::{OK, WRONG};
use alloc::vec::Vec;
use core::fmt;
use core::ops::Range;

type InRange = unsafe extern "C" fn(*const bitm_matrix, usize, usize, u64, *mut u64) -> u32;
type Many = unsafe extern "C" fn(
    *const bitm_matrix,
    *const u64,
    usize,
    *const u64,
    usize,
    *mut u64,
    usize,
    *mut bitm_list_counts,
) -> u32;

/// A list of numbers in a borrowed block, whose header is right. Its other words may hold anything; `check` tests it.
///
/// ```
/// use bitm_proved::{WaveletMatrix, WaveletMatrixView};
/// let made = WaveletMatrix::build(&[3, 1, 4, 1, 5, 1])?;
/// let numbers = WaveletMatrixView::from_words(made.block())?;
/// assert_eq!((numbers.get(4), numbers.rank(1, 4), numbers.select(1, 2)), (Some(5), Some(2), Some(5)));
/// assert_eq!((numbers.quantile(1..5, 2), numbers.next_value(1..5, 2)), (Some(4), Some(4)));
/// assert!(numbers.check() && numbers.len() == 6);
/// # Ok::<(), Box<dyn std::error::Error>>(())
/// ```
#[derive(Clone, Copy)]
pub struct WaveletMatrixView<'a> {
    block: Block<'a, bitm_matrix>,
}

views! { WaveletMatrixView of WaveletMatrix;
    |it: bitm_matrix| it.len, bitm_matrix_open, bitm_matrix_check;
    "this list", "bitm_proved::WaveletMatrix::build(&[3, 1, 4])?", "3", "numbers",
    "such a list: looks at all of it, twice"
}

impl<'a> WaveletMatrixView<'a> {
    /// How many bits each number has at most.
    ///
    /// ```
    /// use bitm_proved::WaveletMatrix;
    /// let (least, more) = (WaveletMatrix::build(&[3, 1, 4])?, WaveletMatrix::build_with(&[3, 1, 4], 8)?);
    /// assert_eq!((least.view().width(), more.view().width()), (3, 8));
    /// # Ok::<(), bitm_proved::BuildError>(())
    /// ```
    #[inline]
    pub fn width(&self) -> u32 {
        self.block.parts().width as u32
    }

    /// The number at an index; `None` exactly where there is none.
    ///
    /// ```
    /// let numbers = bitm_proved::WaveletMatrix::build(&[3, 1, 4])?;
    /// assert_eq!((numbers.view().checked_get(2), numbers.view().checked_get(3)), (Ok(Some(4)), Ok(None)));
    /// # Ok::<(), bitm_proved::BuildError>(())
    /// ```
    #[inline]
    pub fn checked_get(&self, index: usize) -> Result<Option<u64>, WrongTables> {
        // SAFETY: the call writes the number where it returns OK.
        unsafe { self.block.query(|matrix, out| bitm_matrix_get(matrix, index, out)) }
    }

    /// How many of the numbers before an index are this one; `None` exactly where the index is past the end.
    ///
    /// ```
    /// let numbers = bitm_proved::WaveletMatrix::build(&[3, 1, 4, 1, 5, 1])?;
    /// assert_eq!((numbers.view().checked_rank(1, 4), numbers.view().checked_rank(1, 7)), (Ok(Some(2)), Ok(None)));
    /// # Ok::<(), bitm_proved::BuildError>(())
    /// ```
    #[inline]
    pub fn checked_rank(&self, number: u64, index: usize) -> Result<Option<usize>, WrongTables> {
        // SAFETY: as for `checked_get`.
        unsafe { self.block.find(|matrix, out| bitm_matrix_rank(matrix, number, index, out)) }
    }

    /// The index of this number with exactly `rank` such numbers before it; `None` where there are no more than `rank`.
    ///
    /// ```
    /// let numbers = bitm_proved::WaveletMatrix::build(&[3, 1, 4, 1, 5, 1])?;
    /// assert_eq!((numbers.view().checked_select(1, 2), numbers.view().checked_select(1, 3)), (Ok(Some(5)), Ok(None)));
    /// # Ok::<(), bitm_proved::BuildError>(())
    /// ```
    #[inline]
    pub fn checked_select(&self, number: u64, rank: usize) -> Result<Option<usize>, WrongTables> {
        // SAFETY: as for `checked_get`.
        unsafe { self.block.find(|matrix, out| bitm_matrix_select(matrix, number, rank, out)) }
    }

    fn in_range(&self, call: InRange, range: Range<usize>, number: u64) -> Result<Option<u64>, WrongTables> {
        // SAFETY: as for `checked_get`.
        unsafe { self.block.query(|matrix, out| call(matrix, range.start, range.end, number, out)) }
    }

    /// How often a number is in the list.
    #[inline]
    pub(crate) fn count_of(&self, number: u64) -> Result<usize, WrongTables> {
        Ok(self.checked_rank(number, self.len())?.unwrap_or(0))
    }

    /// Whether a number is in the list.
    #[inline]
    pub(crate) fn has(&self, number: u64) -> Result<bool, WrongTables> {
        Ok(self.count_of(number)? > 0)
    }

    /// How many numbers of a range are less than `bound`; `None` exactly where there is no such range.
    ///
    /// ```
    /// let numbers = bitm_proved::WaveletMatrix::build(&[3, 1, 4, 1, 5, 1])?;
    /// assert_eq!(numbers.view().checked_count_less(1..5, 4), Ok(Some(2))); // of 1, 4, 1, 5
    /// assert_eq!(numbers.view().checked_count_less(1..7, 4), Ok(None));
    /// # Ok::<(), bitm_proved::BuildError>(())
    /// ```
    pub fn checked_count_less(&self, range: Range<usize>, bound: u64) -> Result<Option<usize>, WrongTables> {
        Ok(self.in_range(bitm_matrix_count_less, range, bound)?.map(|it| it as usize))
    }

    /// The number of a range that would stand at index `k` if it were sorted; `None` exactly where there is no such
    /// range, or it has no more than `k` numbers.
    ///
    /// ```
    /// let numbers = bitm_proved::WaveletMatrix::build(&[3, 1, 4, 1, 5, 1])?;
    /// assert_eq!(numbers.view().checked_quantile(1..5, 2), Ok(Some(4))); // of 1, 1, 4, 5
    /// assert_eq!(numbers.view().checked_quantile(1..5, 4), Ok(None));
    /// # Ok::<(), bitm_proved::BuildError>(())
    /// ```
    pub fn checked_quantile(&self, range: Range<usize>, k: usize) -> Result<Option<u64>, WrongTables> {
        // SAFETY: as for `checked_get`.
        unsafe { self.block.query(|matrix, out| bitm_matrix_quantile(matrix, range.start, range.end, k, out)) }
    }

    /// The least number of a range that is at least `bound`; `None` where there is none, or no such range.
    ///
    /// ```
    /// let numbers = bitm_proved::WaveletMatrix::build(&[3, 1, 4, 1, 5, 1])?;
    /// assert_eq!(numbers.view().checked_next_value(1..5, 2), Ok(Some(4)));
    /// assert_eq!(numbers.view().checked_next_value(1..5, 6), Ok(None));
    /// # Ok::<(), bitm_proved::BuildError>(())
    /// ```
    pub fn checked_next_value(&self, range: Range<usize>, bound: u64) -> Result<Option<u64>, WrongTables> {
        self.in_range(bitm_matrix_next_value, range, bound)
    }

    /// The greatest number of a range that is less than `bound`; `None` where there is none, or no such range.
    ///
    /// ```
    /// let numbers = bitm_proved::WaveletMatrix::build(&[3, 1, 4, 1, 5, 1])?;
    /// assert_eq!(numbers.view().checked_previous_value(1..5, 4), Ok(Some(1)));
    /// assert_eq!(numbers.view().checked_previous_value(1..5, 1), Ok(None));
    /// # Ok::<(), bitm_proved::BuildError>(())
    /// ```
    pub fn checked_previous_value(&self, range: Range<usize>, bound: u64) -> Result<Option<u64>, WrongTables> {
        self.in_range(bitm_matrix_previous_value, range, bound)
    }

    /// Writes the distinct numbers of a range that are at least `least`, ascending, and how often each is there, as
    /// many as fit; returns how many it wrote. Go on at the last one plus 1. `None` exactly where there is no such
    /// range. Where the tables are wrong, items may have been written.
    ///
    /// ```
    /// let made = bitm_proved::WaveletMatrix::build(&[3, 1, 4, 1, 5, 1])?;
    /// let (mut numbers, mut counts) = ([0; 2], [0; 2]);
    /// assert_eq!(made.view().distinct(0..6, 0, &mut numbers, &mut counts), Ok(Some(2)));
    /// assert_eq!((numbers, counts), ([1, 3], [3, 1]));
    /// assert_eq!(made.view().distinct(0..6, 4, &mut numbers, &mut counts), Ok(Some(2))); // 4 and 5
    /// # Ok::<(), bitm_proved::BuildError>(())
    /// ```
    pub fn distinct(
        &self,
        range: Range<usize>,
        least: u64,
        numbers: &mut [u64],
        counts: &mut [usize],
    ) -> Result<Option<usize>, ListError> {
        let (room, (from, to)) = (pairs(numbers.len(), counts.len())?, (range.start, range.end));
        let (list, of_each) = (numbers.as_mut_ptr(), as_u64_mut(counts).as_mut_ptr());
        // SAFETY: a view, two mutable slices, which overlap neither it nor each other, and room for one number.
        let found =
            unsafe { self.block.find(|it, n| bitm_matrix_distinct(it, from, to, least, list, room, of_each, room, n)) };
        found.map_err(|_| ListError::WrongTables { wrong: room })
    }

    /// Writes the most frequent numbers of a range, the most frequent first and of equally frequent ones the least, and
    /// how often each is there, as many as fit; returns how many it wrote. `None` exactly where there is no such range.
    /// Where the tables are wrong, items may have been written.
    ///
    /// ```
    /// let made = bitm_proved::WaveletMatrix::build(&[3, 1, 4, 1, 5, 1])?;
    /// let (mut numbers, mut counts) = ([0; 2], [0; 2]);
    /// assert_eq!(made.view().top(0..6, &mut numbers, &mut counts), Ok(Some(2)));
    /// assert_eq!((numbers, counts), ([1, 3], [3, 1]));
    /// # Ok::<(), bitm_proved::BuildError>(())
    /// ```
    pub fn top(
        &self,
        range: Range<usize>,
        numbers: &mut [u64],
        counts: &mut [usize],
    ) -> Result<Option<usize>, ListError> {
        let (room, (from, to)) = (pairs(numbers.len(), counts.len())?, (range.start, range.end));
        let (list, of_each) = (numbers.as_mut_ptr(), as_u64_mut(counts).as_mut_ptr());
        // SAFETY: as for `distinct`.
        let found = unsafe { self.block.find(|it, n| bitm_matrix_top(it, from, to, list, room, of_each, room, n)) };
        found.map_err(|_| ListError::WrongTables { wrong: room })
    }

    /// Writes the numbers that are in both ranges and at least `least`, each once, ascending, as many as fit; returns
    /// how many it wrote. Go on at the last one plus 1. `None` exactly where there is no such range. Takes at most as
    /// many turns as the first range has numbers, so give the shorter one first. Where the tables are wrong, numbers
    /// may have been written.
    ///
    /// ```
    /// let made = bitm_proved::WaveletMatrix::build(&[3, 1, 4, 1, 5, 1])?;
    /// let mut numbers = [0; 2];
    /// assert_eq!(made.view().intersect(0..3, 3..6, 0, &mut numbers), Ok(Some(1)));
    /// assert_eq!(numbers[0], 1);
    /// # Ok::<(), Box<dyn std::error::Error>>(())
    /// ```
    pub fn intersect(
        &self,
        first: Range<usize>,
        second: Range<usize>,
        least: u64,
        numbers: &mut [u64],
    ) -> Result<Option<usize>, WrongTables> {
        let (list, room) = (numbers.as_mut_ptr(), numbers.len());
        let (a, b, c, d) = (first.start, first.end, second.start, second.end);
        // SAFETY: as for `distinct`, with one slice.
        unsafe { self.block.find(|it, n| bitm_matrix_intersect(it, a, b, c, d, least, list, room, n)) }
    }

    /// The numbers at a list of indices, up to the first past the end; an error where the block turns out to be wrong.
    ///
    /// ```
    /// let numbers = bitm_proved::WaveletMatrix::build(&[3, 1, 4])?;
    /// assert_eq!(numbers.view().get_list(&[2, 0, 3, 1], &mut [0; 4]), Ok(&[4, 3][..])); // no number is at 3
    /// # Ok::<(), bitm_proved::BuildError>(())
    /// ```
    pub fn get_list<'b>(&self, indices: &[usize], out: &'b mut [u64]) -> Result<&'b [u64], ListError> {
        let (from, len) = (as_u64(indices).as_ptr(), indices.len());
        query_items(len, out, |to, room, written| {
            // SAFETY: a view, a shared and a mutable slice, which do not overlap, and room for one number.
            unsafe { bitm_matrix_get_list(self.block.parts(), from, len, to, room, written) }
        })
    }

    fn list(&self, call: Many, numbers: &[u64], others: &[usize], out: &mut [usize]) -> Result<usize, ListError> {
        let (from, of, len) = (numbers.as_ptr(), as_u64(others).as_ptr(), pairs(numbers.len(), others.len())?);
        query_list(len, as_u64_mut(out), |to, room, counts| {
            // SAFETY: a view, two shared slices and a mutable one, which overlaps neither, and room for the counts.
            unsafe { call(self.block.parts(), from, len, of, len, to, room, counts) }
        })
    }

    /// How many of the numbers before `indices[i]` are `numbers[i]`; returns of how many there is no such index,
    /// written as `NO_ANSWER`.
    ///
    /// ```
    /// use bitm_proved::{WaveletMatrix, NO_ANSWER};
    /// let (numbers, mut out) = (WaveletMatrix::build(&[3, 1, 4, 1, 5, 1])?, [9; 3]);
    /// assert_eq!(numbers.view().rank_list(&[1, 5, 2], &[4, 6, 7], &mut out), Ok(1));
    /// assert_eq!(out, [2, 1, NO_ANSWER]);
    /// # Ok::<(), bitm_proved::BuildError>(())
    /// ```
    pub fn rank_list(&self, numbers: &[u64], indices: &[usize], out: &mut [usize]) -> Result<usize, ListError> {
        self.list(bitm_matrix_rank_list, numbers, indices, out)
    }

    /// The index of `numbers[i]` with `ranks[i]` such numbers before it; returns how many do not exist, written as
    /// `NO_ANSWER`.
    ///
    /// ```
    /// use bitm_proved::{WaveletMatrix, NO_ANSWER};
    /// let (numbers, mut out) = (WaveletMatrix::build(&[3, 1, 4, 1, 5, 1])?, [9; 3]);
    /// assert_eq!(numbers.view().select_list(&[1, 5, 2], &[2, 0, 0], &mut out), Ok(1));
    /// assert_eq!(out, [5, 4, NO_ANSWER]);
    /// # Ok::<(), bitm_proved::BuildError>(())
    /// ```
    pub fn select_list(&self, numbers: &[u64], ranks: &[usize], out: &mut [usize]) -> Result<usize, ListError> {
        self.list(bitm_matrix_select_list, numbers, ranks, out)
    }
}

impl WaveletMatrixView<'_> {
    pub(crate) fn show(&self, f: &mut fmt::Formatter<'_>, name: &str) -> fmt::Result {
        f.debug_struct(name).field("numbers", &self.len()).field("width", &self.width()).finish()
    }
}

/// What the block of a matrix has besides: quarters, and hints.
#[derive(Clone, Copy, Default)]
pub(crate) struct With {
    pub(crate) quarters: bool,
    pub(crate) hints: bool,
}

/// The block of numbers of `width` bits at most: by one call, or level by level with a call of `progress` after each.
pub(crate) fn build(numbers: &[u64], width: u32, with: With, progress: Progress<'_>) -> Result<Vec<u64>, BuildError> {
    let (len, mut words) = (numbers.len(), 0);
    if !(1..=64).contains(&width) {
        return Err(BuildError::WrongWidth { width });
    }
    // SAFETY: numbers are passed, and room for one.
    if unsafe { bitm_matrix_size(len, width, with.quarters, with.hints, &mut words) } != OK {
        return Err(BuildError::TooLong { len });
    }
    let (mut scratch, mut block) = (zeroed::<u64>(2 * len)?, zeroed::<u64>(words as usize)?);
    let status = match progress {
        Some(_) if wider(numbers, width).is_some() => WRONG,
        Some(progress) => level_by_level(numbers, (width, with), &mut scratch, &mut block, progress),
        // SAFETY: a shared and two mutable slices, which do not overlap.
        None => unsafe {
            let (from, room, to) = (numbers.as_ptr(), scratch.as_mut_ptr(), block.as_mut_ptr());
            bitm_matrix_build(from, len, width, with.quarters, with.hints, room, scratch.len(), to, block.len())
        },
    };
    match status {
        OK => Ok(block),
        WRONG => Err(too_wide(numbers, width)),
        _ => Err(BuildError::TooLong { len }),
    }
}

/// Why C refuses numbers of that width.
fn too_wide(numbers: &[u64], width: u32) -> BuildError {
    match wider(numbers, width) {
        Some(index) => BuildError::TooWide { index, number: numbers[index], width },
        None => BuildError::TooLong { len: numbers.len() },
    }
}

/// Writes the block of numbers of at most `width` bits, with a scratch of twice as many numbers.
fn level_by_level(
    numbers: &[u64],
    (width, With { quarters, hints }): (u32, With),
    scratch: &mut [u64],
    block: &mut [u64],
    progress: &mut dyn FnMut(usize, usize),
) -> u32 {
    let len = numbers.len();
    let (sorted, room) = scratch.split_at_mut(len);
    sorted.copy_from_slice(numbers);
    let (from, room, to, words) = (sorted.as_mut_ptr(), room.as_mut_ptr(), block.as_mut_ptr(), block.len());
    for depth in 0..width {
        // SAFETY: three mutable slices, which do not overlap.
        let mut status =
            unsafe { bitm_matrix_write_level(from, len, width, quarters, hints, depth, room, len, to, words) };
        if status == OK && depth + 1 == width {
            // SAFETY: a mutable slice.
            status = unsafe { bitm_matrix_seal(len, width, quarters, hints, to, words) };
        }
        if status != OK {
            return status;
        }
        progress(depth as usize + 1, width as usize);
    }
    OK
}

/// How many bits a number has.
pub(crate) fn width_of(number: u64) -> u32 {
    64 - number.leading_zeros()
}
