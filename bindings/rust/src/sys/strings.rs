//! Strings of bytes with a number each, in one block of memory: views of borrowed blocks.
pub(crate) mod owned;

use crate::errors::{BuildError, EqualPair, StoredError, WrongTables};
use crate::ffi::hashes::*;
use crate::sys::block::{views, Block, Parts};
use crate::sys::hash::PerfectHash;
use crate::sys::key_hash::{siphash, STRING};
use crate::sys::levels::named;
use crate::sys::memory::{one_after_another, words_of, zeroed};
use crate::sys::{NONE, OK};
use alloc::vec::Vec;
use core::{fmt, slice};

/// Strings of bytes in a borrowed block, whose header is right. Its other words may hold anything; `check` tests it.
///
/// ```
/// use bitm_proved::{Strings, StringsView};
/// let made = Strings::build(&["ada", "bob", "eve"])?;
/// let names = StringsView::from_words(made.block())?;
/// assert_eq!((names.contains(b"bob"), names.contains(b"bo"), names.find(b"bo")), (true, false, None));
/// assert_eq!(names.get(names.find(b"eve").unwrap()), Some(&b"eve"[..]));
/// assert!(names.check() && names.len() == 3);
/// # Ok::<(), Box<dyn std::error::Error>>(())
/// ```
#[derive(Clone, Copy)]
pub struct StringsView<'a> {
    block: Block<'a, bitm_strings>,
}

views! { StringsView of Strings;
    |it: bitm_strings| it.hash.keys, bitm_strings_open, bitm_strings_check;
    "these strings", "bitm_proved::Strings::build(&[\"ada\", \"bob\", \"eve\"])?", "3", "strings",
    "strings: looks at all of it"
}

// bindgen does not know that an index, which another file declares, can be copied.
impl Copy for bitm_strings {}
impl Clone for bitm_strings {
    fn clone(&self) -> Self {
        *self
    }
}

impl<'a> StringsView<'a> {
    /// The seed of the hashes of the strings.
    ///
    /// ```
    /// assert_eq!(bitm_proved::Strings::build_with(&["ada", "bob"], 200, 7)?.view().seed(), 7);
    /// # Ok::<(), bitm_proved::BuildError>(())
    /// ```
    #[inline]
    pub fn seed(&self) -> u64 {
        self.block.parts().seed
    }

    /// The number of a string; `None` for any other string.
    ///
    /// ```
    /// let names = bitm_proved::Strings::build(&["ada"])?;
    /// assert_eq!(names.view().checked_find(b"ada"), Ok(Some(0)));
    /// assert_eq!(names.view().checked_find(b"eve"), Ok(None));
    /// # Ok::<(), bitm_proved::BuildError>(())
    /// ```
    #[inline]
    pub fn checked_find(&self, string: &[u8]) -> Result<Option<usize>, WrongTables> {
        // SAFETY: a slice; the call writes the number where it returns OK.
        unsafe { self.block.find(|strings, out| bitm_strings_find(strings, string.as_ptr(), string.len(), out)) }
    }

    /// Whether it is one of the strings.
    #[inline]
    pub(crate) fn has(&self, string: &[u8]) -> Result<bool, WrongTables> {
        Ok(self.checked_find(string)?.is_some())
    }

    /// The string of a number; `None` where there is no such number.
    ///
    /// ```
    /// let names = bitm_proved::Strings::build(&["ada"])?;
    /// assert_eq!(names.view().checked_get(0), Ok(Some(&b"ada"[..])));
    /// assert_eq!(names.view().checked_get(1), Ok(None));
    /// # Ok::<(), bitm_proved::BuildError>(())
    /// ```
    #[inline]
    pub fn checked_get(&self, number: usize) -> Result<Option<&'a [u8]>, WrongTables> {
        let (parts, mut begin, mut len) = (self.block.parts(), 0, 0);
        // SAFETY: a view, and room for two numbers.
        match unsafe { bitm_strings_get(parts, number, &mut begin, &mut len) } {
            OK if len == 0 => Ok(Some(&[])),
            OK => {
                // SAFETY: where the call returns OK, these bytes stand in the words, which are borrowed.
                Ok(Some(unsafe { slice::from_raw_parts(parts.bytes.cast::<u8>().add(begin as usize), len as usize) }))
            }
            NONE => Ok(None),
            _ => Err(WrongTables),
        }
    }
}

impl StringsView<'_> {
    pub(crate) fn show(&self, f: &mut fmt::Formatter<'_>, name: &str) -> fmt::Result {
        f.debug_struct(name).field("strings", &self.len()).finish()
    }
}

/// The block of strings, by a hash of their hashes by the seed.
pub(crate) fn build<S: AsRef<[u8]>>(strings: &[S], percent: u32, seed: u64) -> Result<Vec<u64>, BuildError> {
    let ((bytes, starts), mut hashes) = (one_after_another(strings)?, zeroed::<u64>(strings.len())?);
    let (at, all, ends, len) = (bytes.as_ptr(), bytes.len(), starts[1..].as_ptr(), strings.len());
    // SAFETY: shared slices, and a mutable one.
    unsafe { bitm_strings_hashes(at, all, ends, len, seed, hashes.as_mut_ptr(), len) };
    let hash = PerfectHash::of(&mut hashes, percent, None).map_err(|why| {
        let string = |number: usize| &bytes[starts[number] as usize..starts[number + 1] as usize];
        let again = (0..len).map(|number| siphash(string(number), seed, STRING).0);
        named(why, &hashes, again, |first, second| match string(first) == string(second) {
            true => EqualPair::Strings { first, second },
            false => EqualPair::OneHash { first, second },
        })
    })?;
    let (raw, mut words) = (*hash.raw(), 0);
    // SAFETY: numbers are passed, and room for one.
    let sized = unsafe { bitm_strings_size(raw.index.words_len, raw.sizes_len, len, all, &mut words) };
    let mut block = zeroed::<u64>(if sized == OK { words as usize } else { 0 })?;
    let (to, room) = (block.as_mut_ptr(), block.len());
    // SAFETY: parts that stay where they are, shared slices, and a mutable one, which overlaps none of them.
    match unsafe { bitm_strings_build(&raw, seed, at, all, ends, len, to, room) } {
        OK => Ok(block),
        _ => Err(BuildError::TooLong { len }),
    }
}
