//! An index over an owner's words, with tables of its own, or over the file that an owner has.
use crate::errors::{made, BuildError, StoredError};
use crate::sys::held::Held;
use crate::sys::memory::words_of;
use crate::sys::tables::{OwnSamples, Tables};
use crate::sys::view::IndexView;
#[cfg(feature = "std")]
use alloc::vec::Vec;
use core::{fmt, mem};

/// An index and the owner of its words: a vector, a box, an `Arc`, a mapped file, or any other `AsRef<[u64]>`.
///
/// It has the queries of [`Rank`](crate::Rank), [`Select`](crate::Select), [`Select0`](crate::Select0) and
/// [`Queries`](crate::Queries).
///
/// ```
/// use bitm_proved::{Index, Queries, Rank, Select};
/// use std::sync::Arc;
/// let words: Arc<[u64]> = vec![0b1011, 7].into();
/// let index = Index::build(words.clone());
/// assert_eq!((index.rank(64), index.select(3), index.next_one(2)), (3, 64, Some(3)));
/// assert_eq!((index.owner(), index.view().len()), (&words, 128));
/// ```
pub struct Index<O> {
    view: IndexView<'static>,
    tables: Option<(Tables, [Option<OwnSamples>; 2])>,
    held: Held<O>,
}

/// Which samples an index has: one for each 2^log2 1 bits, or 0 bits; `None` stands for no samples.
///
/// ```
/// use bitm_proved::{Index, Queries, Sampling};
/// let index = Index::try_build(vec![7u64; 100], 6400, Sampling { ones: Some(8), zeros: None })?;
/// assert_eq!(index.view().samples(true).map(|it| it.log2), Some(8));
/// # Ok::<(), bitm_proved::BuildError>(())
/// ```
#[derive(Clone, Copy, PartialEq, Eq, Debug, Default)]
pub struct Sampling {
    /// Of the 1 bits, 7 to 31.
    ///
    /// ```
    /// use bitm_proved::{Index, Queries, Sampling};
    /// let index = Index::try_build([u64::MAX; 4], 256, Sampling { ones: Some(7), ..Sampling::default() })?;
    /// assert_eq!(index.view().samples(true).map(|it| it.samples.len()), Some(2)); // of 256 1 bits
    /// # Ok::<(), bitm_proved::BuildError>(())
    /// ```
    pub ones: Option<u32>,
    /// Of the 0 bits, 7 to 31.
    ///
    /// ```
    /// use bitm_proved::{Index, Queries, Sampling};
    /// let index = Index::try_build([0u64; 4], 256, Sampling { zeros: Some(7), ..Sampling::default() })?;
    /// assert_eq!(index.view().samples(false).map(|it| it.samples.len()), Some(2)); // of 256 0 bits
    /// # Ok::<(), bitm_proved::BuildError>(())
    /// ```
    pub zeros: Option<u32>,
}

impl<O: AsRef<[u64]>> Index<O> {
    /// An index over all bits of the words, without samples. Panics where memory is refused.
    ///
    /// ```
    /// use bitm_proved::{Index, Rank, Select};
    /// let index = Index::build([0b1011u64, 7]); // 1 bits at 0, 1, 3, 64, 65 and 66
    /// assert_eq!((index.rank(65), index.select(5)), (4, 66));
    /// ```
    #[track_caller]
    pub fn build(owner: O) -> Self {
        let bits_len = 64 * owner.as_ref().len();
        made(Self::try_build(owner, bits_len, Sampling::default()))
    }

    /// An index over the first `bits_len` bits of the words.
    ///
    /// # Errors
    /// `TooLong` where the words have fewer bits, or are 2^58 or more, and `NoMemory` where memory is refused.
    ///
    /// ```
    /// use bitm_proved::{BuildError, Index, Rank, Sampling};
    /// let index = Index::try_build([0b1011u64], 3, Sampling::default())?; // of 64 bits the first 3
    /// assert_eq!((index.rank(3), index.try_rank(4)), (2, None));
    /// let longer = Index::try_build([0b1011u64], 65, Sampling::default());
    /// assert!(matches!(longer, Err(BuildError::TooLong { len: 65 })));
    /// # Ok::<(), BuildError>(())
    /// ```
    pub fn try_build(owner: O, bits_len: usize, sampling: Sampling) -> Result<Self, BuildError> {
        let held = Held::new(owner)?;
        // SAFETY: `Index` hands it out only for as long as it is borrowed itself.
        let words = unsafe { held.borrowed::<[u64]>() };
        let tables = Tables::of(words)?;
        // SAFETY: the vectors are owned beside the view and never mutated, so their memory stays.
        let (upper, lower) = unsafe { (stays(&tables.upper), stays(&tables.lower)) };
        let view = IndexView::new(words, bits_len, upper, lower);
        let mut view = view.map_err(|_| BuildError::TooLong { len: bits_len })?;
        let sampled = |one, log2: Option<u32>| {
            let log2 = log2.map(|it| it.clamp(7, 31));
            log2.map(|log2| OwnSamples::of(&view, one, log2)).transpose()
        };
        let samples = [sampled(true, sampling.ones)?, sampled(false, sampling.zeros)?];
        for (one, samples) in [true, false].into_iter().zip(&samples) {
            if let Some(samples) = samples {
                // SAFETY: as of the tables.
                let samples: &'static OwnSamples = unsafe { mem::transmute(samples) };
                view = view.with_samples(one, samples.view());
            }
        }
        let tables = Some((tables, samples));
        Ok(Index { view, tables, held })
    }

    /// The index in a file, whose words the owner has: in a block, with the samples that stand in it, or in a file of
    /// format version 2. What the file holds is not tested: `check` does that.
    ///
    /// # Errors
    /// `NotWhole` where these are no such words, or fewer than the file has; `OtherKind` where they hold another structure;
    /// `NoMemory` where memory is refused.
    ///
    /// ```
    /// use bitm_proved::{Index, Queries, Rank};
    /// let file = Index::build(vec![0b1011u64]).to_stored(64)?;
    /// let read = Index::from_words(file)?;
    /// assert!(read.check() && read.rank(64) == 3);
    /// # Ok::<(), bitm_proved::StoredError>(())
    /// ```
    pub fn from_words(owner: O) -> Result<Self, StoredError> {
        let held = Held::new(owner)?;
        // SAFETY: `Index` hands it out only for as long as it is borrowed itself.
        let view = IndexView::from_words(unsafe { held.borrowed() })?;
        let tables = None;
        Ok(Index { view, tables, held })
    }
}

impl<O: AsRef<[u8]>> Index<O> {
    /// The index in a file, whose bytes the owner has; they begin at a multiple of 8.
    ///
    /// # Errors
    /// As of `from_words`; `Misaligned` where they begin elsewhere.
    ///
    /// ```
    /// use bitm_proved::{bytes_of, words_from_bytes, Index, Queries, Rank, StoredError};
    /// let file = Index::build(vec![0b1011u64]).to_stored(64)?;
    /// let bytes = bytes_of(&file);
    /// assert_eq!(Index::from_bytes(bytes)?.rank(64), 3);
    /// // Bytes of a vector may begin anywhere: copy them then.
    /// assert_eq!(Index::from_words(words_from_bytes(bytes)?)?.rank(64), 3);
    /// # Ok::<(), StoredError>(())
    /// ```
    pub fn from_bytes(owner: O) -> Result<Self, StoredError> {
        let held = Held::new(owner)?;
        // SAFETY: `Index` hands it out only for as long as it is borrowed itself.
        let words = words_of(unsafe { held.borrowed() }).ok_or(StoredError::Misaligned)?;
        let view = IndexView::from_words(words)?;
        let tables = None;
        Ok(Index { view, tables, held })
    }
}

#[cfg(feature = "std")]
impl Index<Vec<u64>> {
    /// The index in the file at a path, which is copied into memory. What the file holds is not tested: `check` does
    /// that.
    ///
    /// # Errors
    /// `OpenError::System` where the system refuses the file, and `OpenError::Stored` as for `from_words`.
    ///
    /// ```
    /// use bitm_proved::{bytes_of, Index, OpenError, Queries, Rank};
    /// let path = std::env::temp_dir().join(format!("bitm-read-index-{}", std::process::id()));
    /// assert!(matches!(Index::read(&path), Err(OpenError::System(_)))); // there is no such file
    /// std::fs::write(&path, bytes_of(&Index::build(vec![0b1011u64]).to_stored(64)?))?;
    /// let index = Index::read(&path)?;
    /// assert!(index.check() && index.rank(64) == 3);
    /// # std::fs::remove_file(&path)?;
    /// # Ok::<(), OpenError>(())
    /// ```
    pub fn read(path: impl AsRef<std::path::Path>) -> Result<Self, crate::errors::OpenError> {
        Ok(Index::from_words(crate::sys::read::words_from_file(path)?)?)
    }
}

/// A borrow of a vector that the compiler takes for longer than it is.
///
/// # Safety
/// It is used only while the vector lives and is not mutated.
unsafe fn stays(numbers: &[u64]) -> &'static [u64] {
    // SAFETY: the caller's duty.
    unsafe { mem::transmute(numbers) }
}

impl<O> Index<O> {
    /// The owner.
    ///
    /// ```
    /// assert_eq!(bitm_proved::Index::build(vec![7u64]).owner(), &[7]);
    /// ```
    pub fn owner(&self) -> &O {
        self.held.owner()
    }

    /// The owner, without the index.
    ///
    /// ```
    /// assert_eq!(bitm_proved::Index::build(vec![7u64]).into_owner(), [7]);
    /// ```
    pub fn into_owner(self) -> O {
        self.held.into_owner()
    }

    /// Whether tables and samples match the words; and of a block whether it is as it was written, by the checksum of
    /// each section. A file of format version 2 has no checksum of its words: there `check` finds only what does not
    /// fit together.
    ///
    /// ```
    /// use bitm_proved::{Index, Queries};
    /// let mut file = Index::build(vec![u64::MAX; 9]).to_stored(64)?;
    /// assert!(Index::from_words(&file[..])?.check());
    /// *file.iter_mut().find(|it| **it == u64::MAX).unwrap() ^= 1; // one bit is another
    /// assert!(!Index::from_words(&file[..])?.check());
    /// # Ok::<(), bitm_proved::StoredError>(())
    /// ```
    pub fn check(&self) -> bool {
        self.view.check()
    }

    /// The number of bytes of its tables and samples.
    ///
    /// ```
    /// assert_eq!(bitm_proved::Index::build(vec![7u64; 64]).size_in_bytes(), 24);
    /// ```
    pub fn size_in_bytes(&self) -> usize {
        let Some((tables, samples)) = &self.tables else {
            return 0;
        };
        let of = |it: &OwnSamples| size_of_val(&it.samples[..]) + size_of_val(&it.starts[..]);
        let samples: usize = samples.iter().flatten().map(of).sum();
        size_of_val(&tables.upper[..]) + size_of_val(&tables.lower[..]) + samples
    }

    #[inline(always)]
    pub(crate) fn as_view(&self) -> &IndexView<'_> {
        &self.view
    }
}

impl<O> fmt::Debug for Index<O> {
    fn fmt(&self, f: &mut fmt::Formatter<'_>) -> fmt::Result {
        self.as_view().show(f, "Index")
    }
}
