//! The queries of bits with tables, under the names of the original.

/// How many 1 bits, and how many 0 bits, there are before a position.
///
/// ```
/// use bitm_proved::{ArrayWithRank101111, Rank};
/// let bits: ArrayWithRank101111 = vec![0b1011].into_boxed_slice().into();
/// assert_eq!((bits.rank(3), bits.rank0(3), bits.try_rank(65)), (2, 1, None));
/// ```
pub trait Rank {
    /// How many of the first `index` bits are 1; `None` exactly where there are fewer bits.
    ///
    /// ```
    /// use bitm_proved::{Index, Rank};
    /// let bits = Index::build([0b1011u64]);
    /// assert_eq!([0, 2, 64, 65].map(|index| bits.try_rank(index)), [Some(0), Some(2), Some(3), None]);
    /// ```
    fn try_rank(&self, index: usize) -> Option<usize>;
    /// How many of the first `index` bits are 1. Panics where there are fewer bits.
    ///
    /// ```
    /// use bitm_proved::{Index, Rank};
    /// let bits = Index::build([0b1011u64]);
    /// assert_eq!([0, 1, 2, 3, 4].map(|index| bits.rank(index)), [0, 1, 2, 2, 3]);
    /// ```
    #[inline]
    #[track_caller]
    fn rank(&self, index: usize) -> usize {
        match self.try_rank(index) {
            Some(rank) => rank,
            None => too_few(index),
        }
    }
    /// As `rank`.
    ///
    /// # Safety
    /// There are at least `index` bits. (This is tested all the same.)
    ///
    /// ```
    /// use bitm_proved::{Index, Rank};
    /// // SAFETY: there are 64 bits.
    /// assert_eq!(unsafe { Index::build([0b1011u64]).rank_unchecked(4) }, 3);
    /// ```
    #[inline]
    #[track_caller]
    unsafe fn rank_unchecked(&self, index: usize) -> usize {
        self.rank(index)
    }
    /// How many of the first `index` bits are 0; `None` exactly where there are fewer bits.
    ///
    /// ```
    /// use bitm_proved::{Index, Rank};
    /// let bits = Index::build([0b1011u64]);
    /// assert_eq!([2, 3, 64, 65].map(|index| bits.try_rank0(index)), [Some(0), Some(1), Some(61), None]);
    /// ```
    #[inline]
    fn try_rank0(&self, index: usize) -> Option<usize> {
        self.try_rank(index).map(|ones| index - ones)
    }
    /// How many of the first `index` bits are 0. Panics where there are fewer bits.
    ///
    /// ```
    /// use bitm_proved::{Index, Rank};
    /// let bits = Index::build([0b1011u64]);
    /// assert_eq!([0, 1, 2, 3, 4].map(|index| bits.rank0(index)), [0, 0, 0, 1, 1]);
    /// ```
    #[inline]
    #[track_caller]
    fn rank0(&self, index: usize) -> usize {
        match self.try_rank0(index) {
            Some(rank) => rank,
            None => too_few(index),
        }
    }
    /// As `rank0`.
    ///
    /// # Safety
    /// There are at least `index` bits. (This is tested all the same.)
    ///
    /// ```
    /// use bitm_proved::{Index, Rank};
    /// // SAFETY: there are 64 bits.
    /// assert_eq!(unsafe { Index::build([0b1011u64]).rank0_unchecked(4) }, 1);
    /// ```
    #[inline]
    #[track_caller]
    unsafe fn rank0_unchecked(&self, index: usize) -> usize {
        self.rank0(index)
    }
    /// Prefetches what `rank` of the index reads; any number will do.
    ///
    /// ```
    /// use bitm_proved::{Index, Rank};
    /// let bits = Index::build(vec![u64::MAX; 1000]);
    /// bits.prefetch(50_000); // while other work is done
    /// assert_eq!(bits.rank(50_000), 50_000);
    /// ```
    fn prefetch(&self, _index: usize) {}
}

/// The position of a 1 bit by its rank, which is how many 1 bits are before it.
///
/// ```
/// use bitm_proved::{ArrayWithRank101111, Select};
/// let bits: ArrayWithRank101111 = vec![0b1011].into_boxed_slice().into();
/// assert_eq!((bits.select(2), bits.try_select(3)), (3, None));
/// ```
pub trait Select {
    /// The position of the 1 bit with a rank; `None` exactly where there is none.
    ///
    /// ```
    /// use bitm_proved::{Index, Select};
    /// let bits = Index::build([0b1011u64]);
    /// assert_eq!([1, 2, 3].map(|rank| bits.try_select(rank)), [Some(1), Some(3), None]);
    /// ```
    fn try_select(&self, rank: usize) -> Option<usize>;
    /// The position of the 1 bit with a rank. Panics where there is none.
    ///
    /// ```
    /// use bitm_proved::{Index, Select};
    /// let bits = Index::build([0b1011u64]);
    /// assert_eq!([0, 1, 2].map(|rank| bits.select(rank)), [0, 1, 3]);
    /// ```
    #[inline]
    #[track_caller]
    fn select(&self, rank: usize) -> usize {
        match self.try_select(rank) {
            Some(position) => position,
            None => no_such("1", rank),
        }
    }
    /// As `select`.
    ///
    /// # Safety
    /// There are more than `rank` 1 bits. (This is tested all the same.)
    ///
    /// ```
    /// use bitm_proved::{Index, Select};
    /// // SAFETY: there are three 1 bits.
    /// assert_eq!(unsafe { Index::build([0b1011u64]).select_unchecked(2) }, 3);
    /// ```
    #[inline]
    #[track_caller]
    unsafe fn select_unchecked(&self, rank: usize) -> usize {
        self.select(rank)
    }
}

/// The position of a 0 bit by its rank, which is how many 0 bits are before it.
///
/// ```
/// use bitm_proved::{ArrayWithRank101111, Select0};
/// let bits: ArrayWithRank101111 = vec![0b1011].into_boxed_slice().into();
/// assert_eq!((bits.select0(1), bits.try_select0(61)), (4, None));
/// ```
pub trait Select0 {
    /// The position of the 0 bit with a rank; `None` exactly where there is none.
    ///
    /// ```
    /// use bitm_proved::{Index, Select0};
    /// let bits = Index::build([0b1011u64]);
    /// assert_eq!([0, 60, 61].map(|rank| bits.try_select0(rank)), [Some(2), Some(63), None]);
    /// ```
    fn try_select0(&self, rank: usize) -> Option<usize>;
    /// The position of the 0 bit with a rank. Panics where there is none.
    ///
    /// ```
    /// use bitm_proved::{Index, Select0};
    /// let bits = Index::build([0b1011u64]);
    /// assert_eq!([0, 1, 2].map(|rank| bits.select0(rank)), [2, 4, 5]);
    /// ```
    #[inline]
    #[track_caller]
    fn select0(&self, rank: usize) -> usize {
        match self.try_select0(rank) {
            Some(position) => position,
            None => no_such("0", rank),
        }
    }
    /// As `select0`.
    ///
    /// # Safety
    /// There are more than `rank` 0 bits. (This is tested all the same.)
    ///
    /// ```
    /// use bitm_proved::{Index, Select0};
    /// // SAFETY: there are 61 0 bits.
    /// assert_eq!(unsafe { Index::build([0b1011u64]).select0_unchecked(1) }, 4);
    /// ```
    #[inline]
    #[track_caller]
    unsafe fn select0_unchecked(&self, rank: usize) -> usize {
        self.select0(rank)
    }
}

#[cold]
#[track_caller]
pub(crate) fn too_few(index: usize) -> ! {
    panic!("rank of the first {index} bits: there are fewer")
}

#[cold]
#[track_caller]
pub(crate) fn no_such(kind: &str, rank: usize) -> ! {
    panic!("there is no {kind} bit with rank {rank}")
}
