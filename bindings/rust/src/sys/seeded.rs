//! Minimal perfect hashes with a seed for each word, each in one block of memory: views of borrowed blocks.
pub(crate) mod owned;

use crate::errors::{ListError, StoredError, WrongTables};
use crate::ffi::hashes::*;
use crate::sys::block::{views, Block, Parts};
use crate::sys::hash::hash_queries;
use crate::sys::memory::words_of;
use core::fmt;

/// A hash with seeds in a borrowed block, whose header is right. Its other words may hold anything; `check` tests it.
///
/// ```
/// use bitm_proved::{SeededHash, SeededHashView};
/// let made = SeededHash::build(vec![5, 7, 9])?;
/// let numbers = SeededHashView::from_words(made.block())?;
/// assert!(numbers.check() && numbers.len() == 3);
/// assert_eq!((numbers.get(7), numbers.get(7).is_some_and(|it| it < 3)), (made.get(7), true));
/// # Ok::<(), Box<dyn std::error::Error>>(())
/// ```
#[derive(Clone, Copy)]
pub struct SeededHashView<'a> {
    block: Block<'a, SeededParts>,
}

/// The hash as C takes it, and the seed of the caller's.
#[derive(Clone, Copy)]
struct SeededParts {
    hash: bitm_seeded_hash,
    seed: u64,
}

/// Opens a block.
///
/// # Safety
/// The words can be read, and the parts written.
unsafe extern "C" fn open(block: *const u64, len: usize, parts: *mut SeededParts) -> u32 {
    // SAFETY: the caller's duty; each word is eight bytes.
    unsafe {
        let (hash, seed) = (&raw mut (*parts).hash, &raw mut (*parts).seed);
        bitm_hash_block_open_seeded_bytes(block, len, block.cast(), 8 * len, hash, seed)
    }
}

views! { SeededHashView of SeededHash;
    |it: SeededParts| it.hash.hash.keys, open, bitm_hash_block_check_seeded;
    "this hash", "bitm_proved::SeededHash::build(vec![5, 7, 9])?", "3", "keys",
    "a hash with seeds: looks at all of it"
}

hash_queries! { SeededHashView<'_>;
    |it| &it.block.parts().hash, bitm_hash_get_seeded, bitm_hash_get_list_seeded, bitm_hash_set_prints_seeded,
    bitm_hash_find_seeded,
    bitm_hash_find_list_seeded;
    "SeededHash", "numbers.view()"
}

// bindgen does not know that an index, which another file declares, can be copied.
impl Copy for bitm_seeded_hash {}
impl Clone for bitm_seeded_hash {
    fn clone(&self) -> Self {
        *self
    }
}

impl SeededHashView<'_> {
    /// The seed that the block was built with, which is yours.
    ///
    /// ```
    /// assert_eq!(bitm_proved::SeededHash::build_with(vec![5, 7], 100, 64, 9)?.view().seed(), 9);
    /// # Ok::<(), bitm_proved::BuildError>(())
    /// ```
    #[inline]
    pub fn seed(&self) -> u64 {
        self.block.parts().seed
    }
}

impl SeededHashView<'_> {
    pub(crate) fn show(&self, f: &mut fmt::Formatter<'_>, name: &str) -> fmt::Result {
        f.debug_struct(name).field("keys", &self.len()).finish()
    }
}
