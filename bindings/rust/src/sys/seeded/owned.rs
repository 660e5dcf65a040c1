//! Hashes with seeds and the owner of their block.
use crate::errors::{made, BuildError, StoredError};
use crate::sys::held::Held;
use crate::sys::levels::{Levels, Progress};
use crate::sys::memory::copied;
use crate::sys::owner::owners_of_blocks;
use crate::sys::seeded::SeededHashView;
use alloc::vec::Vec;
use core::fmt;

/// A minimal perfect hash with a seed for each word of its levels, and the owner of its block: of many keys 2.26 bits a
/// key, where [`PerfectHash`](crate::PerfectHash) takes 2.8. Building takes more time.
///
/// A key is its hash of 64 bits, by a function of yours; equal hashes are refused. No key is kept, so a hash that is
/// none of these may get the number of some key. The block is the file of the hash, the same from C, C++ and Rust.
///
/// ```
/// use bitm_proved::SeededHash;
/// let hashes: Vec<u64> = (1..=1000u64).map(|key| key.wrapping_mul(0x9E3779B97F4A7C15)).collect();
/// let numbers = SeededHash::build(hashes.clone())?;
/// let mut seen = vec![false; numbers.len()];
/// for hash in &hashes {
///     seen[numbers.get(*hash).unwrap()] = true;
/// }
/// assert!(seen.iter().all(|it| *it));
/// # Ok::<(), bitm_proved::BuildError>(())
/// ```
pub struct SeededHash<O = Vec<u64>> {
    view: SeededHashView<'static>,
    held: Held<O>,
}

impl SeededHash {
    /// Of the hashes of keys, with levels that take least memory, and 64 seeds that are tried for each word.
    ///
    /// # Errors
    /// `EqualHashes` where two hashes are equal, `TooLong` where there are too many, and `NoMemory` where memory is
    /// refused.
    ///
    /// ```
    /// use bitm_proved::{BuildError, EqualPair, SeededHash};
    /// assert_eq!(SeededHash::build(vec![5, 7, 9])?.len(), 3);
    /// let pair = EqualPair::Hashes { hash: 5 };
    /// assert_eq!(SeededHash::build(vec![5, 7, 5]).err(), Some(BuildError::EqualHashes { left: 2, pair }));
    /// # Ok::<(), BuildError>(())
    /// ```
    pub fn build(hashes: Vec<u64>) -> Result<Self, BuildError> {
        Self::build_with(hashes, 100, 64, 0)
    }

    /// As `build`, with levels of `percent` bits for each 100 hashes that are left, and the best of the first `tries`
    /// seeds, at most 256, for each word: more take less memory, and more time to build. The block keeps `seed`, which is
    /// yours.
    ///
    /// # Errors
    /// As of `build`.
    ///
    /// ```
    /// assert_eq!(bitm_proved::SeededHash::build_with(vec![1, 2, 3], 200, 8, 7)?.seed(), 7);
    /// # Ok::<(), bitm_proved::BuildError>(())
    /// ```
    pub fn build_with(hashes: Vec<u64>, percent: u32, tries: u16, seed: u64) -> Result<Self, BuildError> {
        Self::of(hashes, percent, tries, seed, None)
    }

    /// As `build_with`: `progress(done, total)` is called after each level, with how many keys have a number and how
    /// many there are; at last with all. Where it panics, all memory is freed. The block is the same.
    ///
    /// # Errors
    /// As of `build`.
    ///
    /// ```
    /// use bitm_proved::SeededHash;
    /// let mut last = (0, 0);
    /// let numbers = SeededHash::build_with_progress(vec![5, 7], 100, 64, 0, |done, total| last = (done, total))?;
    /// assert_eq!((last, numbers.len()), ((2, 2), 2));
    /// # Ok::<(), bitm_proved::BuildError>(())
    /// ```
    pub fn build_with_progress(
        hashes: Vec<u64>,
        percent: u32,
        tries: u16,
        seed: u64,
        mut progress: impl FnMut(usize, usize),
    ) -> Result<Self, BuildError> {
        Self::of(hashes, percent, tries, seed, Some(&mut progress))
    }

    fn of(
        mut hashes: Vec<u64>,
        percent: u32,
        tries: u16,
        seed: u64,
        progress: Progress<'_>,
    ) -> Result<Self, BuildError> {
        let otherwise = BuildError::TooLong { len: hashes.len() };
        Self::of_block(Levels::of(&mut hashes, percent, Some(tries), progress)?.block(seed)?, otherwise)
    }
}

owners_of_blocks! { SeededHash with SeededHashView;
    "hash", "bitm_proved::SeededHash::build(vec![5, 7, 9])?", "3"
}
