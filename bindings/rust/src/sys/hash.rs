//! Minimal perfect hashes: a number of its own below n for each of n keys, by the key's hash of 64 bits.
mod queries;

use crate::errors::{sure, BuildError, ListError, WrongTables};
use crate::ffi::hashes::*;
use crate::sys::levels::{Levels, Progress};
use crate::sys::memory::copied;
use crate::sys::tables::Tables;
use crate::sys::view::IndexView;
use alloc::vec::Vec;
use core::fmt;
pub(crate) use queries::{fingerprint_width, hash_queries};

/// A minimal perfect hash: each of n keys has a number of its own below n, in about three bits a key.
///
/// A key is its hash of 64 bits, by a function of yours; equal hashes are refused. No key is kept: a hash that was none
/// of them may get any number below n. Each query is one proved call.
///
/// ```
/// use bitm_proved::PerfectHash;
/// let hashes: Vec<u64> = (1..=1000u64).map(|key| key.wrapping_mul(0x9E3779B97F4A7C15)).collect();
/// let numbers = PerfectHash::build(hashes.clone())?;
/// let mut seen = vec![false; numbers.len()];
/// for hash in &hashes {
///     seen[numbers.get(*hash).unwrap()] = true;
/// }
/// assert!(seen.iter().all(|it| *it) && !numbers.is_empty());
/// let mut out = [0; 2];
/// assert_eq!(numbers.get_list(&hashes[..2], &mut out), Ok(0));
/// assert_eq!(Some(out[1]), numbers.get(hashes[1]));
/// assert_eq!(numbers.checked_get(hashes[0]), Ok(Some(out[0])));
/// # Ok::<(), bitm_proved::BuildError>(())
/// ```
pub struct PerfectHash {
    raw: bitm_hash,
    words: Vec<u64>,
    tables: Tables,
    sizes: Vec<u64>,
}

// SAFETY: the pointers come from vectors that it owns and never mutates, and no call has state.
unsafe impl Send for PerfectHash {}
// SAFETY: as for `Send`.
unsafe impl Sync for PerfectHash {}

/// The struct that each query takes: of memory that stays where it is.
fn raw(words: &[u64], tables: &Tables, sizes: &[u64], keys: usize) -> bitm_hash {
    let view = IndexView::over(words, 64 * words.len(), &tables.upper, &tables.lower);
    bitm_hash { index: *view.raw(), sizes: sizes.as_ptr(), sizes_len: sizes.len(), keys }
}

impl PerfectHash {
    /// Of the hashes of keys, in the space that takes least memory.
    ///
    /// # Errors
    /// `EqualHashes` where two hashes are equal, `TooLong` where there are too many, and `NoMemory` where memory is
    /// refused.
    ///
    /// ```
    /// use bitm_proved::{BuildError, PerfectHash};
    /// assert_eq!(PerfectHash::build(vec![5, 7, 9])?.len(), 3);
    /// assert!(matches!(PerfectHash::build(vec![5, 7, 5]), Err(BuildError::EqualHashes { .. })));
    /// # Ok::<(), BuildError>(())
    /// ```
    pub fn build(hashes: Vec<u64>) -> Result<Self, BuildError> {
        Self::build_with(hashes, 100)
    }

    /// As `build`, with levels of `percent` bits for each 100 hashes that are left: more are faster.
    ///
    /// # Errors
    /// As of `build`.
    ///
    /// ```
    /// assert_eq!(bitm_proved::PerfectHash::build_with(vec![1, 2, 3], 200)?.len(), 3);
    /// # Ok::<(), bitm_proved::BuildError>(())
    /// ```
    pub fn build_with(mut hashes: Vec<u64>, percent: u32) -> Result<Self, BuildError> {
        Self::of(&mut hashes, percent, None)
    }

    /// As `build_with`: `progress(done, total)` is called after each level, with how many keys have a number and how
    /// many there are; at last with all. Where it panics, all memory is freed. The numbers are the same.
    ///
    /// # Errors
    /// As of `build`.
    ///
    /// ```
    /// use bitm_proved::PerfectHash;
    /// let mut last = (0, 0);
    /// let numbers = PerfectHash::build_with_progress(vec![5, 7, 9], 100, |done, total| last = (done, total))?;
    /// assert_eq!((last, numbers.len()), ((3, 3), 3));
    /// # Ok::<(), bitm_proved::BuildError>(())
    /// ```
    pub fn build_with_progress(
        mut hashes: Vec<u64>,
        percent: u32,
        mut progress: impl FnMut(usize, usize),
    ) -> Result<Self, BuildError> {
        Self::of(&mut hashes, percent, Some(&mut progress))
    }

    /// Of these hashes, which are dropped then; where some are equal, they are left as `Levels::of` does.
    pub(crate) fn of(hashes: &mut Vec<u64>, percent: u32, progress: Progress<'_>) -> Result<Self, BuildError> {
        let keys = hashes.len();
        let Levels { words: room, sizes, .. } = Levels::of(hashes, percent, None, progress)?;
        *hashes = Vec::new();
        let words = copied(&room)?;
        let tables = Tables::of(&words)?;
        let raw = raw(&words, &tables, &sizes, keys);
        Ok(PerfectHash { raw, words, tables, sizes })
    }

    /// The hash as C takes it, with pointers into vectors of this value.
    pub(crate) fn raw(&self) -> &bitm_hash {
        &self.raw
    }

    /// How many keys there are.
    ///
    /// ```
    /// assert_eq!(bitm_proved::PerfectHash::build(vec![5, 7, 9])?.len(), 3);
    /// # Ok::<(), bitm_proved::BuildError>(())
    /// ```
    pub fn len(&self) -> usize {
        self.raw.keys
    }

    /// Whether there are none.
    ///
    /// ```
    /// use bitm_proved::PerfectHash;
    /// assert!(PerfectHash::build(vec![])?.is_empty() && !PerfectHash::build(vec![5])?.is_empty());
    /// # Ok::<(), bitm_proved::BuildError>(())
    /// ```
    pub fn is_empty(&self) -> bool {
        self.len() == 0
    }

    /// The number of bytes that it owns.
    ///
    /// ```
    /// assert!(bitm_proved::PerfectHash::build(vec![1, 2, 3])?.size_in_bytes() > 0);
    /// # Ok::<(), bitm_proved::BuildError>(())
    /// ```
    pub fn size_in_bytes(&self) -> usize {
        let tables = self.tables.upper.len() + self.tables.lower.len();
        8 * (self.words.len() + self.sizes.len() + tables)
    }

    /// The number of a hash; `None` where it is of no key for certain.
    ///
    /// ```
    /// let numbers = bitm_proved::PerfectHash::build(vec![5, 7, 9])?;
    /// let mut found = [5, 7, 9].map(|hash| numbers.get(hash));
    /// found.sort();
    /// assert_eq!(found, [Some(0), Some(1), Some(2)]);
    /// # Ok::<(), bitm_proved::BuildError>(())
    /// ```
    #[track_caller]
    pub fn get(&self, hash: u64) -> Option<usize> {
        sure(self.checked_get(hash))
    }

    /// The number of a key, by its hash and its fingerprint; `None` where the fingerprint at that number is another, so a
    /// value that is no key has a number once in 2^`width`.
    ///
    /// It panics where `width` is above 64, or there is no fingerprint at that number.
    ///
    /// ```
    /// let (numbers, mut prints) = (bitm_proved::PerfectHash::build(vec![5, 7])?, [0]);
    /// assert_eq!(numbers.set_prints(&[5, 7], &[1, 2], &mut prints, 8), Ok(true));
    /// assert_eq!((numbers.find(&prints, 8, 7, 2), numbers.find(&prints, 8, 7, 3)), (numbers.get(7), None));
    /// # Ok::<(), bitm_proved::BuildError>(())
    /// ```
    #[track_caller]
    pub fn find(&self, prints: &[u64], width: u32, hash: u64, key_print: u64) -> Option<usize> {
        sure(self.checked_find(prints, width, hash, key_print))
    }
}

hash_queries! { PerfectHash;
    |it| &it.raw, bitm_hash_get, bitm_hash_get_list, bitm_hash_set_prints, bitm_hash_find, bitm_hash_find_list;
    "PerfectHash", "numbers"
}

impl fmt::Debug for PerfectHash {
    fn fmt(&self, f: &mut fmt::Formatter<'_>) -> fmt::Result {
        f.debug_struct("PerfectHash").field("keys", &self.len()).finish()
    }
}
