//! Perfect hashes of keys and the owner of their block.
use crate::errors::{made, BuildError, StoredError};
use crate::keys::{Key, KeyOptions};
use crate::sys::held::Held;
use crate::sys::key_hash::make::build;
use crate::sys::key_hash::KeyHashView;
use crate::sys::levels::Progress;
use crate::sys::memory::copied;
use crate::sys::owner::owners_of_blocks;
use alloc::vec::Vec;
use core::fmt;

/// A minimal perfect hash of keys, and the owner of its block: a number of its own below n for each of n keys, which
/// are text, bytes or whole numbers, in 2.8 bits a key beside its fingerprint.
///
/// The keys are hashed by SipHash-1-3, and not kept. By fingerprints only one in 2^`bits` of the values that are no
/// keys has a number. The block is the file of the hash, the same in each language: over it `PerfectHash` of Python and
/// JavaScript and `key_hash` of C++ find the same numbers. A hash whose keys you hash yourself is a
/// [`PerfectHash`](crate::PerfectHash) or a [`SeededHash`](crate::SeededHash).
///
/// ```
/// use bitm_proved::KeyHash;
/// let names = KeyHash::build(&["ada", "bob", "eve"])?;
/// let mut numbers = ["ada", "bob", "eve"].map(|it| names.get(it).unwrap());
/// numbers.sort();
/// assert_eq!((numbers, names.get("zoe")), ([0, 1, 2], None));
/// # Ok::<(), bitm_proved::BuildError>(())
/// ```
pub struct KeyHash<O = Vec<u64>> {
    view: KeyHashView<'static>,
    held: Held<O>,
}

impl KeyHash {
    /// Of these keys, with fingerprints of 16 bits, in the space that takes least memory.
    ///
    /// Goes through the keys once, and again where two hashes are equal. Needs 24 bytes a key while it
    /// works, and 8 more where seeds are tried.
    ///
    /// # Errors
    /// `EqualHashes` where two keys are equal, `TooLong` where there are too many, and `NoMemory` where memory is
    /// refused.
    ///
    /// ```
    /// use bitm_proved::{BuildError, EqualPair, KeyHash};
    /// assert_eq!(KeyHash::build(0..1000)?.len(), 1000);
    /// let (names, pair) = (["ada", "bob", "ada"], EqualPair::Keys { first: 0, second: 2 });
    /// assert_eq!(KeyHash::build(&names).err(), Some(BuildError::EqualHashes { left: 2, pair }));
    /// # Ok::<(), BuildError>(())
    /// ```
    pub fn build<'k>(keys: impl IntoIterator<Item: Into<Key<'k>>> + Clone) -> Result<Self, BuildError> {
        Self::build_with(keys, KeyOptions::default())
    }

    /// As `build`, with other options.
    ///
    /// # Errors
    /// As of `build`; `WrongBits` where a fingerprint has more than 32 bits. `EqualHashes` also where different keys
    /// have one hash by the seed that is given, or by each that is tried.
    ///
    /// ```
    /// use bitm_proved::{KeyHash, KeyOptions};
    /// let seeded = KeyOptions { tries: Some(64), ..KeyOptions::default() };
    /// let names = KeyHash::build_with(&["ada", "bob"], seeded)?;
    /// assert!(names.has_seeds() && names.get("ada") != names.get("bob"));
    /// # Ok::<(), bitm_proved::BuildError>(())
    /// ```
    pub fn build_with<'k>(
        keys: impl IntoIterator<Item: Into<Key<'k>>> + Clone,
        options: KeyOptions,
    ) -> Result<Self, BuildError> {
        Self::of(keys, options, None)
    }

    /// As `build_with`: `progress(done, total)` is called after each level, with how many keys have a number and how
    /// many there are; at last with all. Where it panics, all memory is freed. The block is the same.
    ///
    /// # Errors
    /// As of `build_with`.
    ///
    /// ```
    /// use bitm_proved::{KeyHash, KeyOptions};
    /// let (options, mut last) = (KeyOptions::default(), (0, 0));
    /// let names = KeyHash::build_with_progress(&["ada", "bob"], options, |done, total| last = (done, total))?;
    /// assert_eq!((last, names.len()), ((2, 2), 2));
    /// # Ok::<(), bitm_proved::BuildError>(())
    /// ```
    pub fn build_with_progress<'k>(
        keys: impl IntoIterator<Item: Into<Key<'k>>> + Clone,
        options: KeyOptions,
        mut progress: impl FnMut(usize, usize),
    ) -> Result<Self, BuildError> {
        Self::of(keys, options, Some(&mut progress))
    }

    fn of<'k>(
        keys: impl IntoIterator<Item: Into<Key<'k>>> + Clone,
        options: KeyOptions,
        progress: Progress<'_>,
    ) -> Result<Self, BuildError> {
        let block = build(keys, options, progress)?;
        let otherwise = BuildError::TooLong { len: block.len() };
        Self::of_block(block, otherwise)
    }
}

owners_of_blocks! { KeyHash with KeyHashView;
    "hash", "bitm_proved::KeyHash::build(&[\"ada\", \"bob\", \"eve\"])?", "3"
}
