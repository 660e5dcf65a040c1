//! How an index selects: by its tables alone, by samples, or as a user's type does.
use crate::density::{AdaptiveCombinedSamplingDensity, CombinedSamplingDensity};
use crate::errors::{made, sure, NoMemory};
use crate::rank::no_such;
use crate::sys::memory::{as_u64, as_u64_mut, copied, zeroed};
use crate::sys::reads::select_in_word;
use crate::sys::tables::samples_len;
use crate::sys::view::{IndexView, Samples};
use alloc::boxed::Box;
use core::fmt;

/// Selection of 1 bits in words with their two tables. A strategy may be of a user's own.
///
/// ```
/// use bitm_proved::{BinaryRankSearch, RankSelect101111, Select, SelectForRank101111};
/// struct Slow(usize);
/// impl SelectForRank101111 for Slow {
///     fn new(_content: &[u64], _l1ranks: &[usize], _l2ranks: &[u64], total_rank: usize) -> Self {
///         Slow(total_rank)
///     }
///     fn select(&self, content: &[u64], _l1: &[usize], _l2: &[u64], rank: usize) -> Option<usize> {
///         bitm_proved::BitOnesIterator::new(content).nth(rank)
///     }
/// }
/// let (bits, _) = RankSelect101111::<Slow, BinaryRankSearch>::build(vec![0b1011].into_boxed_slice());
/// assert_eq!((bits.select(2), bits.select_support().0), (3, 3));
/// ```
pub trait SelectForRank101111 {
    /// The support for the words, which have `total_rank` 1 bits.
    ///
    /// ```
    /// use bitm_proved::{ArrayWithRank101111, CombinedSampling, SelectForRank101111};
    /// let (bits, ones) = ArrayWithRank101111::build(vec![0b1011].into_boxed_slice());
    /// let samples: CombinedSampling = SelectForRank101111::new(&bits.content, &bits.l1ranks, &bits.l2ranks, ones);
    /// assert_eq!(samples.select(&bits.content, &bits.l1ranks, &bits.l2ranks, 2), Some(3));
    /// ```
    fn new(content: &[u64], l1ranks: &[usize], l2ranks: &[u64], total_rank: usize) -> Self;
    /// The position of the 1 bit with a rank; `None` exactly where there is none.
    ///
    /// ```
    /// use bitm_proved::{ArrayWithRank101111, BinaryRankSearch, SelectForRank101111};
    /// let (bits, _) = ArrayWithRank101111::build(vec![0b1011].into_boxed_slice());
    /// let found = [1, 3].map(|rank| BinaryRankSearch.select(&bits.content, &bits.l1ranks, &bits.l2ranks, rank));
    /// assert_eq!(found, [Some(1), None]);
    /// ```
    fn select(&self, content: &[u64], l1: &[usize], l2: &[u64], rank: usize) -> Option<usize>;
    /// As `select`. Panics where there is none.
    ///
    /// # Safety
    /// There is one. (This is tested all the same.)
    ///
    /// ```
    /// use bitm_proved::{ArrayWithRank101111, BinaryRankSearch, SelectForRank101111};
    /// let (bits, _) = ArrayWithRank101111::build(vec![0b1011].into_boxed_slice());
    /// // SAFETY: there are three 1 bits.
    /// let last = unsafe { BinaryRankSearch.select_unchecked(&bits.content, &bits.l1ranks, &bits.l2ranks, 2) };
    /// assert_eq!(last, 3);
    /// ```
    #[track_caller]
    unsafe fn select_unchecked(&self, content: &[u64], l1ranks: &[usize], l2ranks: &[u64], rank: usize) -> usize {
        match self.select(content, l1ranks, l2ranks, rank) {
            Some(position) => position,
            None => no_such("1", rank),
        }
    }
    /// As `new`; types of this crate return an error where memory is refused.
    ///
    /// ```
    /// use bitm_proved::{BinaryRankSearch, SelectForRank101111};
    /// assert_eq!(BinaryRankSearch::try_new(&[], &[], &[], 0), Ok(BinaryRankSearch)); // it takes no memory
    /// ```
    fn try_new(words: &[u64], l1: &[usize], l2: &[u64], total: usize) -> Result<Self, NoMemory>
    where
        Self: Sized,
    {
        Ok(Self::new(words, l1, l2, total))
    }
}

/// Selection of 0 bits in words with their two tables, which count the 1 bits.
///
/// ```
/// use bitm_proved::{BinaryRankSearch, Select0ForRank101111};
/// let finds = BinaryRankSearch::new0(&[0b1011], &[0], &[0x00C0_1803_0000_0000], 3);
/// assert_eq!(finds.select0(&[0b1011], &[0], &[0x00C0_1803_0000_0000], 1), Some(4));
/// ```
pub trait Select0ForRank101111 {
    /// The support for the words, which have `total_rank` 1 bits.
    ///
    /// ```
    /// use bitm_proved::{ArrayWithRank101111, CombinedSampling, Select0ForRank101111};
    /// let (bits, ones) = ArrayWithRank101111::build(vec![0b1011].into_boxed_slice());
    /// let samples: CombinedSampling = Select0ForRank101111::new0(&bits.content, &bits.l1ranks, &bits.l2ranks, ones);
    /// assert_eq!(samples.select0(&bits.content, &bits.l1ranks, &bits.l2ranks, 1), Some(4));
    /// ```
    fn new0(content: &[u64], l1ranks: &[usize], l2ranks: &[u64], total_rank: usize) -> Self;
    /// The position of the 0 bit with a rank; `None` exactly where there is none.
    ///
    /// ```
    /// use bitm_proved::{ArrayWithRank101111, BinaryRankSearch, Select0ForRank101111};
    /// let (bits, _) = ArrayWithRank101111::build(vec![0b1011].into_boxed_slice());
    /// let found = [0, 61].map(|rank| BinaryRankSearch.select0(&bits.content, &bits.l1ranks, &bits.l2ranks, rank));
    /// assert_eq!(found, [Some(2), None]);
    /// ```
    fn select0(&self, content: &[u64], l1: &[usize], l2: &[u64], rank: usize) -> Option<usize>;
    /// As `select0`. Panics where there is none.
    ///
    /// # Safety
    /// There is one. (This is tested all the same.)
    ///
    /// ```
    /// use bitm_proved::{ArrayWithRank101111, BinaryRankSearch, Select0ForRank101111};
    /// let (bits, _) = ArrayWithRank101111::build(vec![0b1011].into_boxed_slice());
    /// // SAFETY: there are 61 0 bits.
    /// let first = unsafe { BinaryRankSearch.select0_unchecked(&bits.content, &bits.l1ranks, &bits.l2ranks, 0) };
    /// assert_eq!(first, 2);
    /// ```
    #[track_caller]
    unsafe fn select0_unchecked(&self, content: &[u64], l1ranks: &[usize], l2ranks: &[u64], rank: usize) -> usize {
        match self.select0(content, l1ranks, l2ranks, rank) {
            Some(position) => position,
            None => no_such("0", rank),
        }
    }
    /// As `new0`; types of this crate return an error where memory is refused.
    ///
    /// ```
    /// use bitm_proved::{BinaryRankSearch, Select0ForRank101111};
    /// assert_eq!(BinaryRankSearch::try_new0(&[], &[], &[], 0), Ok(BinaryRankSearch)); // it takes no memory
    /// ```
    fn try_new0(words: &[u64], l1: &[usize], l2: &[u64], total: usize) -> Result<Self, NoMemory>
    where
        Self: Sized,
    {
        Ok(Self::new0(words, l1, l2, total))
    }
}

/// All bits of words with their tables, which a user may have written.
#[inline(always)]
pub(crate) fn over<'a>(words: &'a [u64], l1: &'a [usize], l2: &'a [u64]) -> IndexView<'a> {
    IndexView::over(words, words.len().wrapping_mul(64), as_u64(l1), l2)
}

mod sealed {
    pub trait Sealed {}
}

/// The strategies of this crate, whose samples a view and a file have.
///
/// ```
/// use bitm_proved::{CombinedSampling, RankSelect101111, SelectionStrategy};
/// let (bits, _) = RankSelect101111::<CombinedSampling>::build(vec![7].into_boxed_slice());
/// assert!(bits.select_support().samples().is_some());
/// assert!(bits.select0_support().samples().is_none()); // by binary search
/// ```
pub trait SelectionStrategy: sealed::Sealed {
    /// The samples, where there are some.
    ///
    /// ```
    /// use bitm_proved::{BinaryRankSearch, SelectionStrategy};
    /// assert_eq!(BinaryRankSearch.samples(), None);
    /// ```
    #[inline]
    fn samples(&self) -> Option<Samples<'_>> {
        None
    }
}

/// Selection by binary search in the tables, with nothing stored beside them.
///
/// ```
/// use bitm_proved::{BinaryRankSearch, RankSelect101111, Select};
/// let (bits, _) = RankSelect101111::<BinaryRankSearch>::build(vec![0b1011].into_boxed_slice());
/// assert_eq!((bits.select(2), size_of_val(bits.select_support())), (3, 0));
/// ```
#[derive(Clone, Copy, PartialEq, Eq, Debug, Default)]
pub struct BinaryRankSearch;

impl sealed::Sealed for BinaryRankSearch {}
impl SelectionStrategy for BinaryRankSearch {}

impl SelectForRank101111 for BinaryRankSearch {
    #[inline]
    fn new(_content: &[u64], _l1ranks: &[usize], _l2ranks: &[u64], _total_rank: usize) -> Self {
        BinaryRankSearch
    }
    #[inline]
    #[track_caller]
    fn select(&self, content: &[u64], l1: &[usize], l2: &[u64], rank: usize) -> Option<usize> {
        sure(over(content, l1, l2).select_of(true, rank))
    }
}

impl Select0ForRank101111 for BinaryRankSearch {
    #[inline]
    fn new0(_content: &[u64], _l1ranks: &[usize], _l2ranks: &[u64], _total_rank: usize) -> Self {
        BinaryRankSearch
    }
    #[inline]
    #[track_caller]
    fn select0(&self, content: &[u64], l1: &[usize], l2: &[u64], rank: usize) -> Option<usize> {
        sure(over(content, l1, l2).select_of(false, rank))
    }
}

/// The position of the 1 bit of `n` with a rank, by the proved call. Panics where there is none.
///
/// # Safety
/// There is one. (This is tested all the same.)
///
/// ```
/// // SAFETY: three bits are 1.
/// assert_eq!(unsafe { bitm_proved::select64(0b1011, 2) }, 3);
/// ```
#[inline]
#[track_caller]
pub unsafe fn select64(n: u64, rank: u8) -> u8 {
    match select_in_word(n, rank) {
        Some(position) => position,
        None => no_such("1", rank.into()),
    }
}

/// Selection that begins at samples, one for each 2^d 1 bits, or 0 bits. They shorten a search, and no answer depends
/// on them.
///
/// ```
/// use bitm_proved::{CombinedSampling, ConstCombinedSamplingDensity, RankSelect101111, Select, SelectionStrategy};
/// type Sampled = CombinedSampling<ConstCombinedSamplingDensity<8>>;
/// let (bits, ones) = RankSelect101111::<Sampled>::build(vec![u64::MAX; 10].into_boxed_slice());
/// assert_eq!((ones, bits.select(600), bits.try_select(640)), (640, 600, None));
/// assert_eq!(bits.select_support().samples().map(|it| (it.samples.len(), it.log2)), Some((3, 8)));
/// ```
pub struct CombinedSampling<D: CombinedSamplingDensity = AdaptiveCombinedSamplingDensity> {
    select: Box<[u32]>,
    select_begin: Box<[usize]>,
    density: D::SamplingDensity,
}

impl<D: CombinedSamplingDensity> Clone for CombinedSampling<D> {
    fn clone(&self) -> Self {
        let (select, select_begin) = (made(copied(&self.select)), made(copied(&self.select_begin)));
        CombinedSampling {
            select: select.into_boxed_slice(),
            select_begin: select_begin.into_boxed_slice(),
            density: self.density,
        }
    }
}

impl<D: CombinedSamplingDensity> fmt::Debug for CombinedSampling<D> {
    fn fmt(&self, f: &mut fmt::Formatter<'_>) -> fmt::Result {
        f.debug_struct("CombinedSampling")
            .field("log2", &D::items_per_sample_log2(self.density))
            .field("samples", &self.select.len())
            .finish()
    }
}

impl<D: CombinedSamplingDensity> CombinedSampling<D> {
    fn make(one: bool, of: IndexView<'_>, total_rank: usize) -> Result<Self, NoMemory> {
        let bits = of.len();
        let zeros = bits.saturating_sub(total_rank);
        let density = D::density_for(if one { total_rank } else { zeros }, bits);
        let log2 = D::items_per_sample_log2(density).into();
        let mut room = zeroed(samples_len(of.words().len(), log2))?;
        let mut select_begin = zeroed::<usize>(of.upper().len())?;
        let used = of.build_samples(one, log2, &mut room, as_u64_mut(&mut select_begin));
        let used = used.unwrap_or(0);
        let select = copied(&room[..used])?.into_boxed_slice();
        Ok(CombinedSampling { select, select_begin: select_begin.into_boxed_slice(), density })
    }

    #[inline(always)]
    fn view(&self) -> Samples<'_> {
        Samples {
            samples: &self.select,
            starts: as_u64(&self.select_begin),
            log2: D::items_per_sample_log2(self.density).into(),
        }
    }

    /// The number of bytes of the samples.
    #[cfg(feature = "dyn_size_of")]
    pub(crate) fn bytes(&self) -> usize {
        size_of_val(&*self.select) + size_of_val(&*self.select_begin)
    }
}

impl<D: CombinedSamplingDensity> sealed::Sealed for CombinedSampling<D> {}

impl<D: CombinedSamplingDensity> SelectionStrategy for CombinedSampling<D> {
    #[inline]
    fn samples(&self) -> Option<Samples<'_>> {
        Some(self.view())
    }
}

impl<D: CombinedSamplingDensity> SelectForRank101111 for CombinedSampling<D> {
    #[track_caller]
    fn new(content: &[u64], l1ranks: &[usize], l2ranks: &[u64], total_rank: usize) -> Self {
        made(Self::try_new(content, l1ranks, l2ranks, total_rank))
    }
    #[inline]
    #[track_caller]
    fn select(&self, content: &[u64], l1: &[usize], l2: &[u64], rank: usize) -> Option<usize> {
        let view = over(content, l1, l2).with_samples(true, self.view());
        sure(view.select_of(true, rank))
    }
    fn try_new(words: &[u64], l1: &[usize], l2: &[u64], total: usize) -> Result<Self, NoMemory> {
        Self::make(true, over(words, l1, l2), total)
    }
}

impl<D: CombinedSamplingDensity> Select0ForRank101111 for CombinedSampling<D> {
    #[track_caller]
    fn new0(content: &[u64], l1ranks: &[usize], l2ranks: &[u64], total_rank: usize) -> Self {
        made(Self::try_new0(content, l1ranks, l2ranks, total_rank))
    }
    #[inline]
    #[track_caller]
    fn select0(&self, content: &[u64], l1: &[usize], l2: &[u64], rank: usize) -> Option<usize> {
        let view = over(content, l1, l2).with_samples(false, self.view());
        sure(view.select_of(false, rank))
    }
    fn try_new0(words: &[u64], l1: &[usize], l2: &[u64], total: usize) -> Result<Self, NoMemory> {
        Self::make(false, over(words, l1, l2), total)
    }
}
