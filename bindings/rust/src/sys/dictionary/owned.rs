//! Dictionaries and the owner of their block.
use crate::errors::{made, BuildError, StoredError};
use crate::sys::dictionary::{build, DictionaryView};
use crate::sys::held::Held;
use crate::sys::memory::copied;
use crate::sys::owner::owners_of_blocks;
use alloc::vec::Vec;
use core::fmt;

/// A dictionary of numbers, and the owner of its block: a minimal perfect hash of the keys, and the keys, about 67 bits for
/// each.
///
/// Each key has a number of its own below how many there are, at which it stands among the keys; what is no key has none.
/// The hash of a key is its sum with a seed. The block is the file of the dictionary, the same in each language.
///
/// ```
/// use bitm_proved::Dictionary;
/// let squares = Dictionary::build(&[4, 9, 49])?;
/// assert_eq!((squares.contains(49), squares.contains(50), squares.find(50)), (true, false, None));
/// assert_eq!(squares.keys()[squares.find(49).unwrap()], 49);
/// # Ok::<(), bitm_proved::BuildError>(())
/// ```
pub struct Dictionary<O = Vec<u64>> {
    view: DictionaryView<'static>,
    held: Held<O>,
}

impl Dictionary {
    /// Of these keys, in the space that takes least memory.
    ///
    /// # Errors
    /// `EqualHashes` where two keys are equal, `TooLong` where there are too many keys, and
    /// `NoMemory` where memory is refused.
    ///
    /// ```
    /// use bitm_proved::{BuildError, Dictionary, EqualPair};
    /// assert_eq!(Dictionary::build(&[4, 9, 49])?.len(), 3);
    /// let pair = EqualPair::Keys { first: 0, second: 2 };
    /// assert_eq!(Dictionary::build(&[4, 9, 4]).err(), Some(BuildError::EqualHashes { left: 2, pair }));
    /// # Ok::<(), BuildError>(())
    /// ```
    pub fn build(keys: &[u64]) -> Result<Self, BuildError> {
        Self::build_with(keys, 100, 0)
    }

    /// As `build`, with levels of `percent` bits for each 100 keys that are left, and a seed that is added to each key.
    ///
    /// # Errors
    /// As of `build`.
    ///
    /// ```
    /// assert_eq!(bitm_proved::Dictionary::build_with(&[4, 9, 49], 200, 7)?.seed(), 7);
    /// # Ok::<(), bitm_proved::BuildError>(())
    /// ```
    pub fn build_with(keys: &[u64], percent: u32, seed: u64) -> Result<Self, BuildError> {
        Self::of_block(build(keys, percent, seed)?, BuildError::TooLong { len: keys.len() })
    }
}

owners_of_blocks! { Dictionary with DictionaryView;
    "dictionary", "bitm_proved::Dictionary::build(&[4, 9, 49])?", "3"
}
