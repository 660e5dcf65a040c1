//! The index under the original's name: a bit vector and the tables that are built for it.
use crate::errors::{made, sure, BuildError};
use crate::rank::{Rank, Select, Select0};
use crate::select::{over, BinaryRankSearch, Select0ForRank101111, SelectForRank101111, SelectionStrategy};
use crate::sys::memory::{as_u64, as_u64_mut, copied, prefetch, zeroed};
use crate::sys::parts::rank_of;
use crate::sys::tables::{build_tables, table_lens};
use crate::sys::view::IndexView;
use alloc::boxed::Box;
use core::fmt;
use core::ops::Deref;

/// Rank and selection over a bit vector, which derefs to words; the two tables take 3.125 % of extra space.
///
/// ```
/// use bitm_proved::{CombinedSampling, Rank, RankSelect101111, Select};
/// let (bits, ones) = RankSelect101111::<CombinedSampling, CombinedSampling, _>::build(vec![0b1011u64, 7]);
/// assert_eq!((ones, bits.rank(64), bits.select(3), bits.try_select(6)), (6, 3, 64, None));
/// assert_eq!((&bits.content[..], &bits.l1ranks[..], bits.l2ranks.len()), (&[0b1011, 7][..], &[0][..], 1));
/// assert_eq!(bits.as_ref(), [0b1011, 7]);
/// ```
///
/// A query builds a view of words and tables, some 20 instructions; for many queries take [`view`] once.
///
/// [`view`]: crate::Queries::view
///
/// Words and tables may be written: then an answer is inside all the same, or there is none, or a panic says that the
/// tables do not match the words. The same holds of a bit vector that does not deref to the same words each time, as
/// vectors and slices do.
pub struct RankSelect101111<Select = BinaryRankSearch, Select0 = BinaryRankSearch, BV = Box<[u64]>> {
    /// The words.
    ///
    /// ```
    /// let (bits, _) = bitm_proved::ArrayWithRank101111::build(vec![7, 9].into_boxed_slice());
    /// assert_eq!(*bits.content, [7, 9]);
    /// ```
    pub content: BV,
    /// How many 1 bits are before each upper block of 2^32 bits.
    ///
    /// ```
    /// let (bits, _) = bitm_proved::ArrayWithRank101111::build(vec![7, 9].into_boxed_slice());
    /// assert_eq!(*bits.l1ranks, [0]); // one block, before which there are no bits
    /// ```
    pub l1ranks: Box<[usize]>,
    /// For each lower block of 2048 bits: the 1 bits before it in its upper block, and the 1 bits of its basic blocks.
    ///
    /// ```
    /// let (bits, _) = bitm_proved::ArrayWithRank101111::build(vec![7; 40].into_boxed_slice());
    /// assert_eq!(bits.l2ranks.len(), 2); // 2560 bits are two blocks
    /// ```
    pub l2ranks: Box<[u64]>,
    select: Select,
    select0: Select0,
}

/// An index over words that it owns, which selects by binary search.
///
/// ```
/// use bitm_proved::{ArrayWithRank101111, Select};
/// let bits: ArrayWithRank101111 = vec![0b1011].into_boxed_slice().into();
/// assert_eq!(bits.select(2), 3);
/// ```
pub type ArrayWithRank101111 = RankSelect101111<BinaryRankSearch, BinaryRankSearch>;

impl<S: Clone, S0: Clone, BV: Clone> Clone for RankSelect101111<S, S0, BV> {
    fn clone(&self) -> Self {
        let (l1ranks, l2ranks) = (made(copied(&self.l1ranks)), made(copied(&self.l2ranks)));
        RankSelect101111 {
            content: self.content.clone(),
            l1ranks: l1ranks.into_boxed_slice(),
            l2ranks: l2ranks.into_boxed_slice(),
            select: self.select.clone(),
            select0: self.select0.clone(),
        }
    }
}

impl<S: fmt::Debug, S0: fmt::Debug, BV: Deref<Target = [u64]>> fmt::Debug for RankSelect101111<S, S0, BV> {
    fn fmt(&self, f: &mut fmt::Formatter<'_>) -> fmt::Result {
        let mut f = f.debug_struct("RankSelect101111");
        let f = f.field("words", &self.content.len());
        f.field("select", &self.select).field("select0", &self.select0).finish()
    }
}

impl<S, S0, BV> RankSelect101111<S, S0, BV> {
    /// What selects 1 bits.
    ///
    /// ```
    /// use bitm_proved::{ArrayWithRank101111, BinaryRankSearch};
    /// let bits: ArrayWithRank101111 = vec![7].into_boxed_slice().into();
    /// assert_eq!(bits.select_support(), &BinaryRankSearch);
    /// ```
    #[inline]
    pub fn select_support(&self) -> &S {
        &self.select
    }

    /// What selects 0 bits.
    ///
    /// ```
    /// use bitm_proved::{ArrayWithRank101111, BinaryRankSearch};
    /// let bits: ArrayWithRank101111 = vec![7].into_boxed_slice().into();
    /// assert_eq!(bits.select0_support(), &BinaryRankSearch);
    /// ```
    #[inline]
    pub fn select0_support(&self) -> &S0 {
        &self.select0
    }
}

impl<S: SelectForRank101111, S0: Select0ForRank101111, BV: Deref<Target = [u64]>> RankSelect101111<S, S0, BV> {
    /// An index over the bit vector, and its number of 1 bits. Panics where memory is refused.
    ///
    /// ```
    /// use bitm_proved::{ArrayWithRank101111, Rank, Select};
    /// let (bits, ones) = ArrayWithRank101111::build(vec![0b1011, 7].into_boxed_slice());
    /// assert_eq!((ones, bits.rank(64), bits.select(5)), (6, 3, 66));
    /// ```
    #[track_caller]
    pub fn build(content: BV) -> (Self, usize) {
        made(Self::try_build(content))
    }

    /// An index over the bit vector, and its number of 1 bits.
    ///
    /// ```
    /// use bitm_proved::ArrayWithRank101111;
    /// assert_eq!(ArrayWithRank101111::try_build(vec![7].into_boxed_slice())?.1, 3);
    /// # Ok::<(), bitm_proved::BuildError>(())
    /// ```
    pub fn try_build(content: BV) -> Result<(Self, usize), BuildError> {
        let words: &[u64] = &content;
        let (upper_len, lower_len) = table_lens(words.len());
        let mut l1ranks = zeroed(upper_len)?.into_boxed_slice();
        let mut l2ranks = zeroed(lower_len)?.into_boxed_slice();
        let too_long = BuildError::TooLong { len: words.len() };
        let ones = build_tables(words, as_u64_mut(&mut l1ranks), &mut l2ranks).ok_or(too_long)?;
        let select = S::try_new(words, &l1ranks, &l2ranks, ones)?;
        let select0 = S0::try_new0(words, &l1ranks, &l2ranks, ones)?;
        let index = RankSelect101111 { content, l1ranks, l2ranks, select, select0 };
        Ok((index, ones))
    }
}

impl<S, S0, BV: Deref<Target = [u64]>> RankSelect101111<S, S0, BV> {
    #[inline(always)]
    fn tables(&self) -> (&[u64], &[u64]) {
        (as_u64(&self.l1ranks), &self.l2ranks)
    }

    #[inline(always)]
    pub(crate) fn without_samples(&self) -> IndexView<'_> {
        over(&self.content, &self.l1ranks, &self.l2ranks)
    }
}

impl<S: SelectionStrategy, S0: SelectionStrategy, BV: Deref<Target = [u64]>> RankSelect101111<S, S0, BV> {
    #[inline(always)]
    pub(crate) fn sampled(&self) -> IndexView<'_> {
        let mut view = self.without_samples();
        if let Some(samples) = self.select.samples() {
            view = view.with_samples(true, samples);
        }
        if let Some(samples) = self.select0.samples() {
            view = view.with_samples(false, samples);
        }
        view
    }
}

/// Whether the original has no rank there: with the feature `original-end`, at the number of bits.
#[inline(always)]
fn is_past(index: usize, words: &[u64]) -> bool {
    cfg!(feature = "original-end") && index >= 64 * words.len()
}

impl<S: SelectForRank101111, S0: Select0ForRank101111, BV: Deref<Target = [u64]>> Rank for RankSelect101111<S, S0, BV> {
    #[inline]
    #[track_caller]
    fn try_rank(&self, index: usize) -> Option<usize> {
        if is_past(index, &self.content) {
            return None;
        }
        sure(rank_of(&self.content, self.tables(), true, index))
    }
    #[inline]
    #[track_caller]
    fn try_rank0(&self, index: usize) -> Option<usize> {
        if is_past(index, &self.content) {
            return None;
        }
        sure(rank_of(&self.content, self.tables(), false, index))
    }
    #[inline]
    fn prefetch(&self, index: usize) {
        prefetch(&self.l2ranks, index / 2048);
        prefetch(&self.l1ranks, index >> 32);
        prefetch(&self.content, index / 64);
    }
}

impl<S: SelectForRank101111, S0, BV: Deref<Target = [u64]>> Select for RankSelect101111<S, S0, BV> {
    #[inline]
    #[track_caller]
    fn try_select(&self, rank: usize) -> Option<usize> {
        self.select.select(&self.content, &self.l1ranks, &self.l2ranks, rank)
    }
}

impl<S, S0: Select0ForRank101111, BV: Deref<Target = [u64]>> Select0 for RankSelect101111<S, S0, BV> {
    #[inline]
    #[track_caller]
    fn try_select0(&self, rank: usize) -> Option<usize> {
        self.select0.select0(&self.content, &self.l1ranks, &self.l2ranks, rank)
    }
}

impl<S: SelectForRank101111, S0: Select0ForRank101111, BV: Deref<Target = [u64]>> From<BV>
    for RankSelect101111<S, S0, BV>
{
    #[track_caller]
    fn from(content: BV) -> Self {
        Self::build(content).0
    }
}

impl<S: SelectForRank101111, S0: Select0ForRank101111, BV: Deref<Target = [u64]>> AsRef<[u64]>
    for RankSelect101111<S, S0, BV>
{
    #[inline]
    fn as_ref(&self) -> &[u64] {
        &self.content
    }
}

/// Rank alone. It answers as the original's structure of this name, from the tables of the index.
///
/// ```
/// use bitm_proved::RankSimple;
/// let (bits, ones) = RankSimple::build(vec![0b1011u64]);
/// assert_eq!((ones, bits.rank(2), bits.try_rank(65), bits.as_ref()), (3, 2, None, &[0b1011][..]));
/// ```
#[derive(Clone)]
pub struct RankSimple<BV = Box<[u64]>>(pub(crate) RankSelect101111<BinaryRankSearch, BinaryRankSearch, BV>);

/// Rank alone, over words that it owns.
///
/// ```
/// use bitm_proved::ArrayWithRankSimple;
/// let bits: ArrayWithRankSimple = vec![0b1011].into_boxed_slice().into();
/// assert_eq!(bits.rank(3), 2);
/// ```
pub type ArrayWithRankSimple = RankSimple;

impl<BV: Deref<Target = [u64]>> fmt::Debug for RankSimple<BV> {
    fn fmt(&self, f: &mut fmt::Formatter<'_>) -> fmt::Result {
        f.debug_struct("RankSimple").field("words", &self.0.content.len()).finish()
    }
}

impl<BV: Deref<Target = [u64]>> RankSimple<BV> {
    /// The structure, and the number of 1 bits. Panics where memory is refused, or there are 2^32 1 bits or more.
    ///
    /// ```
    /// let (bits, ones) = bitm_proved::RankSimple::build(vec![0b1011u64, 7]);
    /// assert_eq!((ones, bits.rank(65)), (6, 4));
    /// ```
    #[track_caller]
    pub fn build(content: BV) -> (Self, u32) {
        made(Self::try_build(content))
    }

    /// The structure, and the number of 1 bits; `TooLong` where these are 2^32 or more.
    ///
    /// ```
    /// assert_eq!(bitm_proved::RankSimple::try_build(vec![7u64])?.1, 3);
    /// # Ok::<(), bitm_proved::BuildError>(())
    /// ```
    pub fn try_build(content: BV) -> Result<(Self, u32), BuildError> {
        let (index, ones) = RankSelect101111::try_build(content)?;
        let count = u32::try_from(ones).map_err(|_| BuildError::TooLong { len: ones })?;
        Ok((RankSimple(index), count))
    }

    /// As `Rank::try_rank`.
    ///
    /// ```
    /// let (bits, _) = bitm_proved::RankSimple::build(vec![0b1011u64]);
    /// assert_eq!((bits.try_rank(3), bits.try_rank(63)), (Some(2), Some(3)));
    /// assert_eq!(bits.try_rank(65), None);
    /// ```
    #[inline]
    #[track_caller]
    pub fn try_rank(&self, index: usize) -> Option<u32> {
        self.0.try_rank(index).map(|ones| ones as u32)
    }

    /// As `Rank::rank`.
    ///
    /// ```
    /// let (bits, _) = bitm_proved::RankSimple::build(vec![0b1011u64]);
    /// assert_eq!((bits.rank(0), bits.rank(1), bits.rank(4)), (0, 1, 3));
    /// ```
    #[inline]
    #[track_caller]
    pub fn rank(&self, index: usize) -> u32 {
        self.0.rank(index) as u32
    }
}

impl<BV: Deref<Target = [u64]>> Rank for RankSimple<BV> {
    #[inline]
    #[track_caller]
    fn try_rank(&self, index: usize) -> Option<usize> {
        self.0.try_rank(index)
    }
    #[inline]
    #[track_caller]
    fn try_rank0(&self, index: usize) -> Option<usize> {
        self.0.try_rank0(index)
    }
    #[inline]
    fn prefetch(&self, index: usize) {
        self.0.prefetch(index)
    }
}

impl<BV: Deref<Target = [u64]>> From<BV> for RankSimple<BV> {
    #[track_caller]
    fn from(content: BV) -> Self {
        Self::build(content).0
    }
}

impl<BV: Deref<Target = [u64]>> AsRef<[u64]> for RankSimple<BV> {
    #[inline]
    fn as_ref(&self) -> &[u64] {
        self.0.as_ref()
    }
}
