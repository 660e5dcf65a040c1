//! Dictionaries of numbers, each in one block of memory: views of borrowed blocks.
pub(crate) mod owned;

use crate::errors::{BuildError, EqualPair, ListError, StoredError, WrongTables};
use crate::ffi::hashes::*;
use crate::sys::block::{views, Block, Parts};
use crate::sys::hash::PerfectHash;
use crate::sys::levels::named;
use crate::sys::lists::query_list;
use crate::sys::memory::{as_u64_mut, copied, words_of, zeroed};
use crate::sys::OK;
use alloc::vec::Vec;
use core::{fmt, slice};

/// A dictionary in a borrowed block, whose header is right. Its other words may hold anything; `check` tests it.
///
/// ```
/// use bitm_proved::{Dictionary, DictionaryView};
/// let made = Dictionary::build(&[4, 9, 49])?;
/// let squares = DictionaryView::from_words(made.block())?;
/// assert_eq!((squares.contains(49), squares.contains(50), squares.find(50)), (true, false, None));
/// assert_eq!(squares.keys()[squares.find(49).unwrap()], 49);
/// assert!(squares.check() && squares.len() == 3);
/// # Ok::<(), Box<dyn std::error::Error>>(())
/// ```
#[derive(Clone, Copy)]
pub struct DictionaryView<'a> {
    block: Block<'a, bitm_dictionary>,
}

views! { DictionaryView of Dictionary;
    |it: bitm_dictionary| it.keys_len, bitm_dictionary_open, bitm_dictionary_check;
    "this dictionary", "bitm_proved::Dictionary::build(&[4, 9, 49])?", "3", "keys",
    "a dictionary: looks at all of it"
}

// bindgen does not know that an index, which another file declares, can be copied.
impl Copy for bitm_hash {}
impl Clone for bitm_hash {
    fn clone(&self) -> Self {
        *self
    }
}
impl Copy for bitm_dictionary {}
impl Clone for bitm_dictionary {
    fn clone(&self) -> Self {
        *self
    }
}

impl<'a> DictionaryView<'a> {
    /// The keys, in the order of their numbers.
    ///
    /// ```
    /// let squares = bitm_proved::Dictionary::build(&[4, 9, 49])?;
    /// assert_eq!(squares.view().keys()[squares.find(9).unwrap()], 9);
    /// # Ok::<(), bitm_proved::BuildError>(())
    /// ```
    #[inline]
    pub fn keys(&self) -> &'a [u64] {
        // SAFETY: the call that opened the block wrote where its keys lie in it.
        unsafe { slice::from_raw_parts(self.block.parts().keys, self.len()) }
    }

    /// What is added to each key to hash it.
    ///
    /// ```
    /// assert_eq!(bitm_proved::Dictionary::build_with(&[4, 9, 49], 200, 7)?.view().seed(), 7);
    /// # Ok::<(), bitm_proved::BuildError>(())
    /// ```
    #[inline]
    pub fn seed(&self) -> u64 {
        self.block.parts().seed
    }

    /// The number of a key, which is where it stands among the keys; `None` where it is no key.
    ///
    /// ```
    /// let squares = bitm_proved::Dictionary::build(&[4])?;
    /// assert_eq!(squares.view().checked_find(4), Ok(Some(0)));
    /// assert_eq!(squares.view().checked_find(5), Ok(None));
    /// # Ok::<(), bitm_proved::BuildError>(())
    /// ```
    #[inline]
    pub fn checked_find(&self, key: u64) -> Result<Option<usize>, WrongTables> {
        // SAFETY: the call writes the number where it returns OK.
        unsafe { self.block.find(|dictionary, out| bitm_dictionary_find(dictionary, key, out)) }
    }

    /// Whether it is a key.
    #[inline]
    pub(crate) fn has(&self, key: u64) -> Result<bool, WrongTables> {
        Ok(self.checked_find(key)?.is_some())
    }

    /// The numbers of a list of keys; returns how many of them are no keys, written as `NO_ANSWER`.
    ///
    /// ```
    /// use bitm_proved::{Dictionary, NO_ANSWER};
    /// let (squares, mut out) = (Dictionary::build(&[4])?, [9; 2]);
    /// assert_eq!((squares.view().find_list(&[4, 5], &mut out), out), (Ok(1), [0, NO_ANSWER]));
    /// # Ok::<(), bitm_proved::BuildError>(())
    /// ```
    pub fn find_list(&self, keys: &[u64], out: &mut [usize]) -> Result<usize, ListError> {
        query_list(keys.len(), as_u64_mut(out), |to, room, counts| {
            // SAFETY: a view, a shared and a mutable slice, which do not overlap, and room for the counts.
            unsafe { bitm_dictionary_find_list(self.block.parts(), keys.as_ptr(), keys.len(), to, room, counts) }
        })
    }
}

impl DictionaryView<'_> {
    pub(crate) fn show(&self, f: &mut fmt::Formatter<'_>, name: &str) -> fmt::Result {
        f.debug_struct(name).field("keys", &self.len()).finish()
    }
}

/// The block of the dictionary of keys, by a hash of their sums with the seed.
pub(crate) fn build(keys: &[u64], percent: u32, seed: u64) -> Result<Vec<u64>, BuildError> {
    let mut hashes = copied(keys)?;
    hashes.iter_mut().for_each(|it| *it = it.wrapping_add(seed));
    let hash = PerfectHash::of(&mut hashes, percent, None).map_err(|why| {
        let again = keys.iter().map(|it| it.wrapping_add(seed));
        named(why, &hashes, again, |first, second| EqualPair::Keys { first, second })
    })?;
    let mut placed = zeroed::<u64>(keys.len())?;
    for key in keys {
        if let Ok(Some(number)) = hash.checked_get(key.wrapping_add(seed)) {
            placed[number] = *key;
        }
    }
    let parts =
        bitm_dictionary { hash: *hash.raw(), keys: placed.as_ptr(), keys_len: placed.len(), seed, reserved: [0; 2] };
    let (mut words, len) = (0, keys.len());
    // SAFETY: numbers are passed, and room for one.
    let sized = unsafe { bitm_dictionary_size(parts.hash.index.words_len, parts.hash.sizes_len, len, &mut words) };
    let mut block = zeroed::<u64>(if sized == OK { words as usize } else { 0 })?;
    // SAFETY: parts that stay where they are, and a mutable slice, which overlaps none of them.
    match unsafe { bitm_dictionary_build(&parts, block.as_mut_ptr(), block.len()) } {
        OK => Ok(block),
        _ => Err(BuildError::TooLong { len }),
    }
}
