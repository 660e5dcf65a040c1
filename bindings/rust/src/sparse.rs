//! Sparse bits: queries that panic where their block is wrong.
use crate::answers::{answers, by_view};
use crate::errors::ListError;
use crate::sys::sequence::SequenceView;
use crate::sys::sparse::owned::SparseBits;
use crate::sys::sparse::SparseBitsView;

answers! { SparseBitsView, SparseBits;
    /// The bit at a position; `None` exactly where there is none. One proved call.
    ///
    /// ```
    /// let bits = bitm_proved::SparseBits::build(&[3, 100, 101, 4000], 5000)?;
    /// assert_eq!((bits.get(100), bits.get(5000)), (Some(true), None));
    /// # Ok::<(), bitm_proved::BuildError>(())
    /// ```
    pub fn get(&self, position: usize) -> Option<bool> = checked_get;

    /// How many 1 bits there are before a position; `None` exactly where it is past the end. One proved call.
    ///
    /// ```
    /// let bits = bitm_proved::SparseBits::build(&[3, 100, 101, 4000], 5000)?;
    /// assert_eq!((bits.rank(101), bits.rank(5000), bits.rank(5001)), (Some(2), Some(4), None));
    /// # Ok::<(), bitm_proved::BuildError>(())
    /// ```
    pub fn rank(&self, position: usize) -> Option<usize> = checked_rank;

    /// How many 0 bits there are before a position; `None` exactly where it is past the end. One proved call.
    ///
    /// ```
    /// let bits = bitm_proved::SparseBits::build(&[3, 100, 101, 4000], 5000)?;
    /// assert_eq!((bits.rank0(101), bits.rank0(5001)), (Some(99), None));
    /// # Ok::<(), bitm_proved::BuildError>(())
    /// ```
    pub fn rank0(&self, position: usize) -> Option<usize> = checked_rank0;

    /// The position of the 1 bit with that rank; `None` where there is none. One proved call.
    ///
    /// ```
    /// let bits = bitm_proved::SparseBits::build(&[3, 100, 101, 4000], 5000)?;
    /// assert_eq!((bits.select(3), bits.select(4)), (Some(4000), None));
    /// # Ok::<(), bitm_proved::BuildError>(())
    /// ```
    pub fn select(&self, rank: usize) -> Option<usize> = checked_select;

    /// The position of the 0 bit with that rank; `None` where there is none. One proved call.
    ///
    /// ```
    /// let bits = bitm_proved::SparseBits::build(&[3, 100, 101, 4000], 5000)?;
    /// assert_eq!((bits.select0(3), bits.select0(4996)), (Some(4), None));
    /// # Ok::<(), bitm_proved::BuildError>(())
    /// ```
    pub fn select0(&self, rank: usize) -> Option<usize> = checked_select0;

    /// The position of the first 1 bit at or after a position; `None` where there is none. One proved call.
    ///
    /// ```
    /// let bits = bitm_proved::SparseBits::build(&[3, 100, 101, 4000], 5000)?;
    /// assert_eq!((bits.next_one(102), bits.next_one(4001)), (Some(4000), None));
    /// # Ok::<(), bitm_proved::BuildError>(())
    /// ```
    pub fn next_one(&self, from: usize) -> Option<usize> = checked_next_one;

    /// The position of the first 0 bit at or after a position; `None` where there is none. One proved call.
    ///
    /// ```
    /// let bits = bitm_proved::SparseBits::build(&[3, 100, 101, 4000], 5000)?;
    /// assert_eq!((bits.next_zero(100), bits.next_zero(5000)), (Some(102), None));
    /// # Ok::<(), bitm_proved::BuildError>(())
    /// ```
    pub fn next_zero(&self, from: usize) -> Option<usize> = checked_next_zero;

    /// The position of the last 1 bit at or before a position, which may be past the end; `None` where there is
    /// none. One proved call.
    ///
    /// ```
    /// let bits = bitm_proved::SparseBits::build(&[3, 100, 101, 4000], 5000)?;
    /// assert_eq!((bits.previous_one(3999), bits.previous_one(2)), (Some(101), None));
    /// # Ok::<(), bitm_proved::BuildError>(())
    /// ```
    pub fn previous_one(&self, from: usize) -> Option<usize> = checked_previous_one;

    /// The position of the last 0 bit at or before a position, which may be past the end; `None` where there is
    /// none. One proved call.
    ///
    /// ```
    /// let bits = bitm_proved::SparseBits::build(&[3, 100, 101, 4000], 5000)?;
    /// assert_eq!((bits.previous_zero(101), bits.previous_zero(9999)), (Some(99), Some(4999)));
    /// # Ok::<(), bitm_proved::BuildError>(())
    /// ```
    pub fn previous_zero(&self, from: usize) -> Option<usize> = checked_previous_zero;

    /// How many 1 bits there are. One proved call.
    ///
    /// ```
    /// let bits = bitm_proved::SparseBits::build(&[3, 100, 101, 4000], 5000)?;
    /// assert_eq!(bits.count_ones(), 4);
    /// # Ok::<(), bitm_proved::BuildError>(())
    /// ```
    pub fn count_ones(&self) -> usize = ones;

    /// How many 0 bits there are. One proved call.
    ///
    /// ```
    /// let bits = bitm_proved::SparseBits::build(&[3, 100, 101, 4000], 5000)?;
    /// assert_eq!(bits.count_zeros(), 4996);
    /// # Ok::<(), bitm_proved::BuildError>(())
    /// ```
    pub fn count_zeros(&self) -> usize = zeros;
}

by_view! { SparseBits;
    /// How many bits there are.
    ///
    /// ```
    /// assert_eq!(bitm_proved::SparseBits::build(&[3, 100], 5000)?.len(), 5000);
    /// # Ok::<(), bitm_proved::BuildError>(())
    /// ```
    pub fn len(&self) -> usize;

    /// Whether there are none.
    ///
    /// ```
    /// use bitm_proved::SparseBits;
    /// assert!(SparseBits::build(&[], 0)?.is_empty() && !SparseBits::build(&[], 1)?.is_empty());
    /// # Ok::<(), bitm_proved::BuildError>(())
    /// ```
    pub fn is_empty(&self) -> bool;

    /// The words of the block, which is also the file of these bits.
    ///
    /// ```
    /// use bitm_proved::SparseBits;
    /// let made = SparseBits::build(&[3, 100], 5000)?;
    /// assert_eq!(SparseBits::from_words(made.block())?.block(), made.block());
    /// # Ok::<(), Box<dyn std::error::Error>>(())
    /// ```
    pub fn block(&self) -> &[u64];

    /// The positions of the 1 bits.
    ///
    /// ```
    /// let bits = bitm_proved::SparseBits::build(&[3, 100], 5000)?;
    /// assert!(bits.positions().iter().eq([3, 100]));
    /// # Ok::<(), bitm_proved::BuildError>(())
    /// ```
    pub fn positions(&self) -> SequenceView<'_>;

    /// Whether the block is as it was written and holds sparse bits: looks at all of it.
    ///
    /// ```
    /// assert!(bitm_proved::SparseBits::build(&[3, 100], 5000)?.check());
    /// # Ok::<(), bitm_proved::BuildError>(())
    /// ```
    pub fn check(&self) -> bool;

    /// The bits at a list of positions, as 0 and 1; returns how many of these are past the end, written as `NO_ANSWER`.
    ///
    /// ```
    /// use bitm_proved::{SparseBits, NO_ANSWER};
    /// let (bits, mut out) = (SparseBits::build(&[3, 100, 101, 4000], 5000)?, [9; 3]);
    /// assert_eq!((bits.get_list(&[3, 4, 5000], &mut out), out), (Ok(1), [1, 0, NO_ANSWER]));
    /// # Ok::<(), bitm_proved::BuildError>(())
    /// ```
    pub fn get_list(&self, positions: &[usize], out: &mut [usize]) -> Result<usize, ListError>;

    /// How many 1 bits there are before each of a list of positions; returns how many of these are past the end,
    /// written as `NO_ANSWER`.
    ///
    /// ```
    /// use bitm_proved::{SparseBits, NO_ANSWER};
    /// let (bits, mut out) = (SparseBits::build(&[3, 100, 101, 4000], 5000)?, [9; 3]);
    /// assert_eq!((bits.rank_list(&[3, 101, 5001], &mut out), out), (Ok(1), [0, 2, NO_ANSWER]));
    /// # Ok::<(), bitm_proved::BuildError>(())
    /// ```
    pub fn rank_list(&self, positions: &[usize], out: &mut [usize]) -> Result<usize, ListError>;

    /// How many 0 bits there are before each of a list of positions, as `rank_list`.
    ///
    /// ```
    /// use bitm_proved::{SparseBits, NO_ANSWER};
    /// let (bits, mut out) = (SparseBits::build(&[3, 100, 101, 4000], 5000)?, [9; 3]);
    /// assert_eq!((bits.rank0_list(&[3, 101, 5001], &mut out), out), (Ok(1), [3, 99, NO_ANSWER]));
    /// # Ok::<(), bitm_proved::BuildError>(())
    /// ```
    pub fn rank0_list(&self, positions: &[usize], out: &mut [usize]) -> Result<usize, ListError>;

    /// The position of the 1 bit with each of a list of ranks; returns how many do not exist, written as `NO_ANSWER`.
    ///
    /// ```
    /// use bitm_proved::{SparseBits, NO_ANSWER};
    /// let (bits, mut out) = (SparseBits::build(&[3, 100, 101, 4000], 5000)?, [9; 3]);
    /// assert_eq!((bits.select_list(&[0, 3, 4], &mut out), out), (Ok(1), [3, 4000, NO_ANSWER]));
    /// # Ok::<(), bitm_proved::BuildError>(())
    /// ```
    pub fn select_list(&self, ranks: &[usize], out: &mut [usize]) -> Result<usize, ListError>;

    /// The position of the 0 bit with each of a list of ranks, as `select_list`.
    ///
    /// ```
    /// use bitm_proved::{SparseBits, NO_ANSWER};
    /// let (bits, mut out) = (SparseBits::build(&[3, 100, 101, 4000], 5000)?, [9; 3]);
    /// assert_eq!((bits.select0_list(&[3, 98, 4996], &mut out), out), (Ok(1), [4, 99, NO_ANSWER]));
    /// # Ok::<(), bitm_proved::BuildError>(())
    /// ```
    pub fn select0_list(&self, ranks: &[usize], out: &mut [usize]) -> Result<usize, ListError>;
}
