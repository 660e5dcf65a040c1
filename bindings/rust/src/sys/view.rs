//! Borrowed words with their tables: the struct that each query of the archive takes.
use crate::errors::{ListError, WrongTables};
use crate::ffi::words::*;
use crate::sys::block::Block;
use crate::sys::lists::query_list;
use crate::sys::{found, memory, query, OK};
use core::{fmt, ptr, slice};

/// Borrowed samples of one kind of bits. They may hold anything: no answer depends on them.
///
/// ```
/// use bitm_proved::{Index, Queries, Samples, Sampling};
/// let index = Index::try_build(vec![u64::MAX; 40], 2560, Sampling { ones: Some(7), zeros: None })?;
/// let Samples { samples, starts, log2 } = index.view().samples(true).unwrap();
/// assert_eq!((samples.len(), starts, log2), (20, &[0][..], 7)); // 2560 / 2^7
/// # Ok::<(), bitm_proved::BuildError>(())
/// ```
#[derive(Clone, Copy, PartialEq, Eq, Debug)]
pub struct Samples<'a> {
    /// The samples.
    ///
    /// ```
    /// use bitm_proved::{Index, Queries, Sampling};
    /// let index = Index::try_build([u64::MAX; 4], 256, Sampling { ones: Some(7), zeros: None })?;
    /// assert_eq!(index.view().samples(true).map(|it| it.samples.len()), Some(2)); // of 256 1 bits
    /// # Ok::<(), bitm_proved::BuildError>(())
    /// ```
    pub samples: &'a [u32],
    /// The number of samples before each upper block.
    ///
    /// ```
    /// use bitm_proved::{Index, Queries, Sampling};
    /// let index = Index::try_build([u64::MAX; 4], 256, Sampling { ones: Some(7), zeros: None })?;
    /// assert_eq!(index.view().samples(true).map(|it| it.starts), Some(&[0][..])); // before the only block
    /// # Ok::<(), bitm_proved::BuildError>(())
    /// ```
    pub starts: &'a [u64],
    /// The logarithm of how many bits of the kind one sample stands for.
    ///
    /// ```
    /// use bitm_proved::{Index, Queries, Sampling};
    /// let index = Index::try_build([u64::MAX; 4], 256, Sampling { ones: Some(7), zeros: None })?;
    /// assert_eq!(index.view().samples(true).map(|it| it.log2), Some(7)); // for 128 1 bits each
    /// # Ok::<(), bitm_proved::BuildError>(())
    /// ```
    pub log2: u32,
}

/// Borrowed words, whose first `bits_len` bits count, with tables, and samples or none.
///
/// Tables may hold anything. Where they match the words, which [`check`] says, answers are those of plain counting;
/// else an answer is inside all the same, or says that the tables are wrong. [`Rank`], [`Select`], [`Select0`] and
/// [`Queries`] have the queries; each is one call of the archive.
///
/// [`check`]: IndexView::check
/// [`Rank`]: crate::Rank
/// [`Select`]: crate::Select
/// [`Select0`]: crate::Select0
/// [`Queries`]: crate::Queries
///
/// ```
/// use bitm_proved::{build_tables, IndexView, Rank, Select};
/// let (words, mut upper, mut lower) = ([0b1011_0110], [0], [0]);
/// build_tables(&words, &mut upper, &mut lower);
/// let bits = IndexView::new(&words, 6, &upper, &lower)?; // of 64 bits the first 6
/// assert_eq!((bits.rank(6), bits.try_rank(7), bits.select(3), bits.try_select(4)), (4, None, 5, None));
/// assert_eq!((bits.len(), bits.is_empty(), bits.get(5), bits.get(6)), (6, false, Some(true), None));
/// assert!(bits.check());
/// # Ok::<(), bitm_proved::WrongTables>(())
/// ```
#[derive(Clone, Copy)]
pub struct IndexView<'a> {
    raw: bitm_index,
    /// The block that all of it stands in, where there is one.
    block: Option<&'a [u64]>,
}

// SAFETY: the pointers come from shared slices, and no call has state.
unsafe impl Send for IndexView<'_> {}
// SAFETY: as for `Send`.
unsafe impl Sync for IndexView<'_> {}

/// No samples.
pub(crate) const NO_SAMPLES: bitm_samples =
    bitm_samples { samples: ptr::null(), samples_len: 0, starts: ptr::null(), starts_len: 0, log2: 0, reserved: 0 };

impl<'a> IndexView<'a> {
    /// The first `bits_len` bits of words with their tables.
    ///
    /// # Errors
    /// `WrongTables` where the words have fewer bits, or a table is not as long as theirs.
    ///
    /// ```
    /// use bitm_proved::{build_tables, IndexView, Rank};
    /// let (words, mut upper, mut lower) = ([0b1011], [0], [0]);
    /// build_tables(&words, &mut upper, &mut lower);
    /// assert_eq!(IndexView::new(&words, 64, &upper, &lower)?.rank(64), 3);
    /// assert!(IndexView::new(&words, 65, &upper, &lower).is_err()); // fewer bits
    /// assert!(IndexView::new(&words, 64, &upper, &[]).is_err()); // a table that is too short
    /// # Ok::<(), bitm_proved::WrongTables>(())
    /// ```
    pub fn new(words: &'a [u64], bits_len: usize, upper: &'a [u64], lower: &'a [u64]) -> Result<Self, WrongTables> {
        let view = Self::over(words, bits_len, upper, lower);
        // No position is that large, so an error is one of the lengths.
        view.call(bitm_index_rank, true, usize::MAX)?;
        Ok(view)
    }

    /// As `new`, where the lengths may be any: each call tests them.
    #[inline(always)]
    pub(crate) fn over(words: &'a [u64], bits_len: usize, upper: &'a [u64], lower: &'a [u64]) -> Self {
        let raw = bitm_index {
            words: words.as_ptr(),
            words_len: words.len(),
            upper: upper.as_ptr(),
            upper_len: upper.len(),
            lower: lower.as_ptr(),
            lower_len: lower.len(),
            bits_len: bits_len as u64,
            ones: NO_SAMPLES,
            zeros: NO_SAMPLES,
            reserved: [0; 2],
        };
        Self::of(raw)
    }

    /// Of parts whose lengths are tested, or are tested by each call, and which live as long as the view says.
    #[inline(always)]
    pub(crate) fn of(raw: bitm_index) -> Self {
        IndexView { raw, block: None }
    }

    /// As the index of that block, in which words, tables and samples stand.
    pub(crate) fn in_block(mut self, block: &'a [u64]) -> Self {
        self.block = Some(block);
        self
    }

    pub(crate) fn block(&self) -> Option<&'a [u64]> {
        self.block
    }

    /// With samples of the 1 bits, or of the 0 bits where `one` is false: selections of that kind begin at them.
    ///
    /// ```
    /// use bitm_proved::{ArrayWithRank101111, Queries, Samples, Select};
    /// let index: ArrayWithRank101111 = vec![u64::MAX; 40].into_boxed_slice().into();
    /// let samples = Samples { samples: &[0; 20], starts: &[0], log2: 7 };
    /// let sampled = index.view().with_samples(true, samples);
    /// assert_eq!((sampled.select(1000), sampled.samples(true), sampled.samples(false)), (1000, Some(samples), None));
    /// ```
    #[inline(always)]
    pub fn with_samples(mut self, one: bool, samples: Samples<'a>) -> Self {
        let raw = bitm_samples {
            samples: samples.samples.as_ptr(),
            samples_len: samples.samples.len(),
            starts: samples.starts.as_ptr(),
            starts_len: samples.starts.len(),
            log2: samples.log2,
            reserved: 0,
        };
        if one {
            self.raw.ones = raw;
        } else {
            self.raw.zeros = raw;
        }
        self.block = None;
        self
    }

    #[inline(always)]
    pub(crate) fn raw(&self) -> &bitm_index {
        &self.raw
    }

    #[inline(always)]
    fn call(
        &self,
        call: unsafe extern "C" fn(*const bitm_index, bool, u64, *mut u64) -> u32,
        one: bool,
        number: usize,
    ) -> Result<Option<usize>, WrongTables> {
        // SAFETY: a view, which borrows its slices, and room for the number that a call writes where it returns OK.
        let found = unsafe { query(|out| call(&self.raw, one, number as u64, out)) };
        Ok(found?.map(|it| it as usize))
    }

    #[inline(always)]
    pub(crate) fn rank_of(&self, one: bool, position: usize) -> Result<Option<usize>, WrongTables> {
        self.call(bitm_index_rank, one, position)
    }

    #[inline(always)]
    pub(crate) fn select_of(&self, one: bool, rank: usize) -> Result<Option<usize>, WrongTables> {
        self.call(bitm_index_select, one, rank)
    }

    #[inline(always)]
    pub(crate) fn next_of(&self, one: bool, from: usize) -> Result<Option<usize>, WrongTables> {
        self.call(bitm_index_next, one, from)
    }

    #[inline(always)]
    pub(crate) fn previous_of(&self, one: bool, from: usize) -> Result<Option<usize>, WrongTables> {
        self.call(bitm_index_previous, one, from)
    }

    pub(crate) fn count_of(&self, one: bool) -> usize {
        let mut out = 0;
        // SAFETY: a view, which borrows its slices, and room for one number.
        let status = unsafe { bitm_index_count(&self.raw, one, &mut out) };
        found(status, out, self.len(), self.raw.words_len).unwrap_or(0) as usize
    }

    /// A list of queries; how many have no answer.
    pub(crate) fn list(
        &self,
        selects: bool,
        one: bool,
        queries: &[usize],
        out: &mut [usize],
    ) -> Result<usize, ListError> {
        let call = if selects { bitm_index_select_list } else { bitm_index_rank_list };
        let (from, len) = (memory::as_u64(queries).as_ptr(), queries.len());
        query_list(len, memory::as_u64_mut(out), |to, room, counts| {
            // SAFETY: a view, a shared and a mutable slice, which do not overlap, and room for the counts.
            unsafe { call(&self.raw, one, from, len, to, room, counts) }
        })
    }

    /// The number of bits.
    ///
    /// ```
    /// use bitm_proved::{Index, Queries};
    /// assert_eq!(Index::build([7u64, 0]).view().len(), 128);
    /// ```
    #[inline]
    pub fn len(&self) -> usize {
        self.raw.bits_len as usize
    }

    /// Whether there are none.
    ///
    /// ```
    /// use bitm_proved::{Index, Queries};
    /// assert!(Index::build(vec![]).view().is_empty() && !Index::build([0u64]).view().is_empty());
    /// ```
    #[inline]
    pub fn is_empty(&self) -> bool {
        self.len() == 0
    }

    /// The bit at a position; `None` exactly where there is none. Tested, not proved.
    ///
    /// ```
    /// use bitm_proved::{Index, Queries};
    /// let index = Index::build([0b1011u64]);
    /// let bits = index.view();
    /// assert_eq!((bits.get(1), bits.get(2), bits.get(64)), (Some(true), Some(false), None));
    /// ```
    #[inline]
    pub fn get(&self, position: usize) -> Option<bool> {
        let bit = crate::inline::bit(self.words(), position)?;
        (position < self.len()).then_some(bit)
    }

    /// The words.
    ///
    /// ```
    /// use bitm_proved::{Index, Queries};
    /// assert_eq!(Index::build([7u64, 9]).view().words(), [7, 9]);
    /// ```
    #[inline(always)]
    pub fn words(&self) -> &'a [u64] {
        // SAFETY: the slice that `over` was given.
        unsafe { slice::from_raw_parts(self.raw.words, self.raw.words_len) }
    }

    /// The upper table: how many 1 bits are before each upper block of 2^32 bits.
    ///
    /// ```
    /// use bitm_proved::{Index, Queries};
    /// assert_eq!(Index::build([7u64, 9]).view().upper(), [0]); // one block, before which there are no bits
    /// ```
    pub fn upper(&self) -> &'a [u64] {
        // SAFETY: the slice that `over` was given.
        unsafe { slice::from_raw_parts(self.raw.upper, self.raw.upper_len) }
    }

    /// The lower table: one number for each lower block of 2048 bits.
    ///
    /// ```
    /// use bitm_proved::{Index, Queries};
    /// assert_eq!(Index::build(vec![7u64; 40]).view().lower().len(), 2); // 2560 bits are two blocks
    /// ```
    pub fn lower(&self) -> &'a [u64] {
        // SAFETY: the slice that `over` was given.
        unsafe { slice::from_raw_parts(self.raw.lower, self.raw.lower_len) }
    }

    /// The samples of the 1 bits, or of the 0 bits where `one` is false.
    ///
    /// ```
    /// use bitm_proved::{Index, Queries, Sampling};
    /// let index = Index::try_build([7u64], 64, Sampling { ones: None, zeros: Some(9) })?;
    /// let bits = index.view();
    /// assert_eq!((bits.samples(true), bits.samples(false).map(|it| it.log2)), (None, Some(9)));
    /// # Ok::<(), bitm_proved::BuildError>(())
    /// ```
    pub fn samples(&self, one: bool) -> Option<Samples<'a>> {
        let raw = if one { &self.raw.ones } else { &self.raw.zeros };
        if raw.samples.is_null() {
            return None;
        }
        // SAFETY: the slices that `with_samples` was given.
        let (samples, starts) = unsafe {
            (slice::from_raw_parts(raw.samples, raw.samples_len), slice::from_raw_parts(raw.starts, raw.starts_len))
        };
        Some(Samples { samples, starts, log2: raw.log2 })
    }

    /// Whether the tables match the words, and the samples too, where there are some; and of a block whether it is as
    /// it was written, by the checksum of each section. A file of format version 2 has no checksum of its words: there
    /// `check` finds only what does not fit together.
    ///
    /// ```
    /// use bitm_proved::{Index, IndexView, Queries};
    /// let index = Index::build([7u64]);
    /// let bits = index.view();
    /// assert!(bits.check());
    /// let wrong = IndexView::new(bits.words(), 64, &[1], bits.lower())?; // no 1 bit is before the first block
    /// assert!(!wrong.check());
    /// # Ok::<(), bitm_proved::WrongTables>(())
    /// ```
    pub fn check(&self) -> bool {
        let right = match self.block {
            Some(block) => Block::<bitm_index>::is_written(block),
            None => self.has_tables(),
        };
        right && self.check_samples(true) && self.check_samples(false)
    }

    /// Whether the tables match the words.
    pub(crate) fn has_tables(&self) -> bool {
        // SAFETY: a view, which borrows its slices.
        unsafe { bitm_index_check(&self.raw) == OK }
    }

    /// Whether there are no samples, or those that `build_samples` writes where the tables match the words.
    fn check_samples(&self, one: bool) -> bool {
        // SAFETY: a view, which borrows its slices.
        self.samples(one).is_none() || unsafe { bitm_index_check_samples(&self.raw, one) } == OK
    }
}

impl IndexView<'_> {
    pub(crate) fn show(&self, f: &mut fmt::Formatter<'_>, name: &str) -> fmt::Result {
        let (mut f, ones) = (f.debug_struct(name), self.call(bitm_index_rank, true, self.len()));
        f.field("bits", &self.len());
        match ones {
            Ok(ones) => f.field("ones", &ones.unwrap_or(0)),
            Err(why) => f.field("ones", &why),
        };
        f.finish()
    }
}

impl fmt::Debug for IndexView<'_> {
    fn fmt(&self, f: &mut fmt::Formatter<'_>) -> fmt::Result {
        self.show(f, "IndexView")
    }
}
