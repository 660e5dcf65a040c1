//! Sparse bits, each in one block of memory: views of borrowed blocks.
pub(crate) mod owned;

use crate::errors::{BuildError, ListError, StoredError, WrongTables};
use crate::ffi::blocks::*;
use crate::ffi::words::bitm_list_counts;
use crate::sys::block::{views, Block, Parts};
use crate::sys::faults::{not_below, unsorted};
use crate::sys::lists::query_list;
use crate::sys::memory::{as_u64, as_u64_mut, words_of, zeroed};
use crate::sys::sequence::SequenceView;
use crate::sys::{OK, UNSORTED, WRONG};
use alloc::vec::Vec;
use core::fmt;

type One = unsafe extern "C" fn(*const bitm_sparse, bool, u64, *mut u64) -> u32;
type Many =
    unsafe extern "C" fn(*const bitm_sparse, bool, *const u64, usize, *mut u64, usize, *mut bitm_list_counts) -> u32;

/// Sparse bits in a borrowed block, whose header is right. Its other words may hold anything; `check` tests it.
///
/// ```
/// use bitm_proved::{SparseBits, SparseBitsView};
/// let made = SparseBits::build(&[3, 100, 101, 4000], 5000)?;
/// let bits = SparseBitsView::from_words(made.block())?;
/// assert_eq!((bits.get(100), bits.rank(101), bits.select(3)), (Some(true), Some(2), Some(4000)));
/// assert_eq!((bits.select0(3), bits.next_one(102)), (Some(4), Some(4000)));
/// assert!(bits.check() && bits.len() == 5000);
/// # Ok::<(), Box<dyn std::error::Error>>(())
/// ```
#[derive(Clone, Copy)]
pub struct SparseBitsView<'a> {
    block: Block<'a, bitm_sparse>,
}

views! { SparseBitsView of SparseBits;
    |it: bitm_sparse| it.bits_len as usize, bitm_sparse_open, bitm_sparse_check;
    "these bits", "bitm_proved::SparseBits::build(&[3, 100], 5000)?", "5000", "bits",
    "sparse bits: looks at all of it"
}

impl<'a> SparseBitsView<'a> {
    /// The positions of the 1 bits.
    ///
    /// ```
    /// let bits = bitm_proved::SparseBits::build(&[3, 100], 5000)?;
    /// assert!(bits.view().positions().iter().eq([3, 100]));
    /// # Ok::<(), bitm_proved::BuildError>(())
    /// ```
    pub fn positions(&self) -> SequenceView<'a> {
        SequenceView::of(self.block.parts().positions)
    }

    /// The bit at a position; `None` exactly where there is none.
    ///
    /// ```
    /// let bits = bitm_proved::SparseBits::build(&[3, 100, 101, 4000], 5000)?;
    /// assert_eq!(bits.view().checked_get(100), Ok(Some(true)));
    /// assert_eq!(bits.view().checked_get(5000), Ok(None));
    /// # Ok::<(), bitm_proved::BuildError>(())
    /// ```
    #[inline]
    pub fn checked_get(&self, position: usize) -> Result<Option<bool>, WrongTables> {
        // SAFETY: the call writes the number where it returns OK.
        let found = unsafe { self.block.query(|bits, out| bitm_sparse_get(bits, position as u64, out)) };
        Ok(found?.map(|it| it != 0))
    }

    #[inline(always)]
    fn call(&self, call: One, one: bool, number: usize) -> Result<Option<usize>, WrongTables> {
        // SAFETY: a call writes the number where it returns OK.
        unsafe { self.block.find(|bits, out| call(bits, one, number as u64, out)) }
    }

    /// How many 1 bits there are.
    #[inline]
    pub(crate) fn ones(&self) -> Result<usize, WrongTables> {
        Ok(self.checked_rank(self.len())?.unwrap_or(0))
    }

    /// How many 0 bits there are.
    #[inline]
    pub(crate) fn zeros(&self) -> Result<usize, WrongTables> {
        Ok(self.checked_rank0(self.len())?.unwrap_or(0))
    }

    /// How many 1 bits there are before a position; `None` exactly where it is past the end.
    ///
    /// ```
    /// let bits = bitm_proved::SparseBits::build(&[3, 100, 101, 4000], 5000)?;
    /// assert_eq!(bits.view().checked_rank(101), Ok(Some(2)));
    /// assert_eq!(bits.view().checked_rank(5000), Ok(Some(4)));
    /// assert_eq!(bits.view().checked_rank(5001), Ok(None));
    /// # Ok::<(), bitm_proved::BuildError>(())
    /// ```
    #[inline]
    pub fn checked_rank(&self, position: usize) -> Result<Option<usize>, WrongTables> {
        self.call(bitm_sparse_rank, true, position)
    }

    /// How many 0 bits there are before a position; `None` exactly where it is past the end.
    ///
    /// ```
    /// let bits = bitm_proved::SparseBits::build(&[3, 100, 101, 4000], 5000)?;
    /// assert_eq!(bits.view().checked_rank0(101), Ok(Some(99)));
    /// assert_eq!(bits.view().checked_rank0(5001), Ok(None));
    /// # Ok::<(), bitm_proved::BuildError>(())
    /// ```
    #[inline]
    pub fn checked_rank0(&self, position: usize) -> Result<Option<usize>, WrongTables> {
        self.call(bitm_sparse_rank, false, position)
    }

    /// The position of the 1 bit with that rank; `None` where there is none.
    ///
    /// ```
    /// let bits = bitm_proved::SparseBits::build(&[3, 100, 101, 4000], 5000)?;
    /// assert_eq!(bits.view().checked_select(3), Ok(Some(4000)));
    /// assert_eq!(bits.view().checked_select(4), Ok(None));
    /// # Ok::<(), bitm_proved::BuildError>(())
    /// ```
    #[inline]
    pub fn checked_select(&self, rank: usize) -> Result<Option<usize>, WrongTables> {
        self.call(bitm_sparse_select, true, rank)
    }

    /// The position of the 0 bit with that rank; `None` where there is none.
    ///
    /// ```
    /// let bits = bitm_proved::SparseBits::build(&[3, 100, 101, 4000], 5000)?;
    /// assert_eq!(bits.view().checked_select0(3), Ok(Some(4)));
    /// assert_eq!(bits.view().checked_select0(4996), Ok(None));
    /// # Ok::<(), bitm_proved::BuildError>(())
    /// ```
    #[inline]
    pub fn checked_select0(&self, rank: usize) -> Result<Option<usize>, WrongTables> {
        self.call(bitm_sparse_select, false, rank)
    }

    /// The position of the first 1 bit at or after a position; `None` where there is none.
    ///
    /// ```
    /// let bits = bitm_proved::SparseBits::build(&[3, 100, 101, 4000], 5000)?;
    /// assert_eq!(bits.view().checked_next_one(102), Ok(Some(4000)));
    /// assert_eq!(bits.view().checked_next_one(4001), Ok(None));
    /// # Ok::<(), bitm_proved::BuildError>(())
    /// ```
    #[inline]
    pub fn checked_next_one(&self, from: usize) -> Result<Option<usize>, WrongTables> {
        self.call(bitm_sparse_next, true, from)
    }

    /// The position of the first 0 bit at or after a position; `None` where there is none.
    ///
    /// ```
    /// let bits = bitm_proved::SparseBits::build(&[3, 100, 101, 4000], 5000)?;
    /// assert_eq!(bits.view().checked_next_zero(100), Ok(Some(102)));
    /// assert_eq!(bits.view().checked_next_zero(5000), Ok(None));
    /// # Ok::<(), bitm_proved::BuildError>(())
    /// ```
    #[inline]
    pub fn checked_next_zero(&self, from: usize) -> Result<Option<usize>, WrongTables> {
        self.call(bitm_sparse_next, false, from)
    }

    /// The position of the last 1 bit at or before a position, which may be past the end; `None` where there is none.
    ///
    /// ```
    /// let bits = bitm_proved::SparseBits::build(&[3, 100, 101, 4000], 5000)?;
    /// assert_eq!(bits.view().checked_previous_one(3999), Ok(Some(101)));
    /// assert_eq!(bits.view().checked_previous_one(2), Ok(None));
    /// # Ok::<(), bitm_proved::BuildError>(())
    /// ```
    #[inline]
    pub fn checked_previous_one(&self, from: usize) -> Result<Option<usize>, WrongTables> {
        self.call(bitm_sparse_previous, true, from)
    }

    /// The position of the last 0 bit at or before a position, which may be past the end; `None` where there is none.
    ///
    /// ```
    /// let bits = bitm_proved::SparseBits::build(&[3, 100, 101, 4000], 5000)?;
    /// assert_eq!(bits.view().checked_previous_zero(101), Ok(Some(99)));
    /// assert_eq!(bits.view().checked_previous_zero(9999), Ok(Some(4999)));
    /// # Ok::<(), bitm_proved::BuildError>(())
    /// ```
    #[inline]
    pub fn checked_previous_zero(&self, from: usize) -> Result<Option<usize>, WrongTables> {
        self.call(bitm_sparse_previous, false, from)
    }

    /// The bits at a list of positions, as 0 and 1; returns how many of these are past the end, written as `NO_ANSWER`.
    ///
    /// ```
    /// use bitm_proved::{SparseBits, NO_ANSWER};
    /// let (bits, mut out) = (SparseBits::build(&[3, 100, 101, 4000], 5000)?, [9; 3]);
    /// assert_eq!((bits.view().get_list(&[3, 4, 5000], &mut out), out), (Ok(1), [1, 0, NO_ANSWER]));
    /// # Ok::<(), bitm_proved::BuildError>(())
    /// ```
    pub fn get_list(&self, positions: &[usize], out: &mut [usize]) -> Result<usize, ListError> {
        let (from, len) = (as_u64(positions).as_ptr(), positions.len());
        query_list(len, as_u64_mut(out), |to, room, counts| {
            // SAFETY: a view, a shared and a mutable slice, which do not overlap, and room for the counts.
            unsafe { bitm_sparse_get_list(self.block.parts(), from, len, to, room, counts) }
        })
    }

    fn list(&self, call: Many, one: bool, queries: &[usize], out: &mut [usize]) -> Result<usize, ListError> {
        let (from, len) = (as_u64(queries).as_ptr(), queries.len());
        query_list(len, as_u64_mut(out), |to, room, counts| {
            // SAFETY: a view, a shared and a mutable slice, which do not overlap, and room for the counts.
            unsafe { call(self.block.parts(), one, from, len, to, room, counts) }
        })
    }

    /// How many 1 bits there are before each of a list of positions; returns how many of these are past the end,
    /// written as `NO_ANSWER`.
    ///
    /// ```
    /// use bitm_proved::{SparseBits, NO_ANSWER};
    /// let (bits, mut out) = (SparseBits::build(&[3, 100, 101, 4000], 5000)?, [9; 3]);
    /// assert_eq!((bits.view().rank_list(&[3, 101, 5001], &mut out), out), (Ok(1), [0, 2, NO_ANSWER]));
    /// # Ok::<(), bitm_proved::BuildError>(())
    /// ```
    pub fn rank_list(&self, positions: &[usize], out: &mut [usize]) -> Result<usize, ListError> {
        self.list(bitm_sparse_rank_list, true, positions, out)
    }

    /// How many 0 bits there are before each of a list of positions, as `rank_list`.
    ///
    /// ```
    /// use bitm_proved::{SparseBits, NO_ANSWER};
    /// let (bits, mut out) = (SparseBits::build(&[3, 100, 101, 4000], 5000)?, [9; 3]);
    /// assert_eq!((bits.view().rank0_list(&[3, 101, 5001], &mut out), out), (Ok(1), [3, 99, NO_ANSWER]));
    /// # Ok::<(), bitm_proved::BuildError>(())
    /// ```
    pub fn rank0_list(&self, positions: &[usize], out: &mut [usize]) -> Result<usize, ListError> {
        self.list(bitm_sparse_rank_list, false, positions, out)
    }

    /// The position of the 1 bit with each of a list of ranks; returns how many do not exist, written as `NO_ANSWER`.
    ///
    /// ```
    /// use bitm_proved::{SparseBits, NO_ANSWER};
    /// let (bits, mut out) = (SparseBits::build(&[3, 100, 101, 4000], 5000)?, [9; 3]);
    /// assert_eq!((bits.view().select_list(&[0, 3, 4], &mut out), out), (Ok(1), [3, 4000, NO_ANSWER]));
    /// # Ok::<(), bitm_proved::BuildError>(())
    /// ```
    pub fn select_list(&self, ranks: &[usize], out: &mut [usize]) -> Result<usize, ListError> {
        self.list(bitm_sparse_select_list, true, ranks, out)
    }

    /// The position of the 0 bit with each of a list of ranks, as `select_list`.
    ///
    /// ```
    /// use bitm_proved::{SparseBits, NO_ANSWER};
    /// let (bits, mut out) = (SparseBits::build(&[3, 100, 101, 4000], 5000)?, [9; 3]);
    /// assert_eq!((bits.view().select0_list(&[3, 98, 4996], &mut out), out), (Ok(1), [4, 99, NO_ANSWER]));
    /// # Ok::<(), bitm_proved::BuildError>(())
    /// ```
    pub fn select0_list(&self, ranks: &[usize], out: &mut [usize]) -> Result<usize, ListError> {
        self.list(bitm_sparse_select_list, false, ranks, out)
    }
}

impl SparseBitsView<'_> {
    pub(crate) fn show(&self, f: &mut fmt::Formatter<'_>, name: &str) -> fmt::Result {
        f.debug_struct(name).field("bits", &self.len()).field("ones", &self.block.parts().positions.len).finish()
    }
}

/// The block of `len` bits with 1 bits at the positions.
pub(crate) fn build(positions: &[u64], len: usize) -> Result<Vec<u64>, BuildError> {
    let (ones, mut words) = (positions.len(), 0);
    let too_long = BuildError::TooLong { len: ones };
    // SAFETY: numbers are passed, and room for one.
    if unsafe { bitm_sparse_size(ones, positions.last().map_or(0, |it| *it), &mut words) } != OK {
        return Err(too_long);
    }
    let mut block = zeroed::<u64>(words as usize)?;
    // SAFETY: a shared and a mutable slice, which do not overlap.
    let status = unsafe { bitm_sparse_build(positions.as_ptr(), ones, len as u64, block.as_mut_ptr(), block.len()) };
    match status {
        OK => Ok(block),
        UNSORTED => Err(unsorted(positions, true).map_or(too_long, |index| {
            let (position, before) = (positions[index], positions[index - 1]);
            BuildError::NotRising { index, position, before }
        })),
        WRONG => Err(not_below(positions, len as u64).map_or(too_long, |index| BuildError::PastEnd {
            index,
            position: positions[index],
            len,
        })),
        _ => Err(too_long),
    }
}
