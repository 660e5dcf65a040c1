//! Strings of bytes and the owner of their block.
use crate::errors::{made, BuildError, StoredError};
use crate::sys::held::Held;
use crate::sys::memory::copied;
use crate::sys::owner::owners_of_blocks;
use crate::sys::strings::{build, StringsView};
use alloc::vec::Vec;
use core::fmt;

/// Strings of bytes with a number each, and the owner of their block: a minimal perfect hash of their hashes, and the
/// strings.
///
/// Each string has a number of its own below how many there are; any other string has none. The hash of a string is
/// SipHash-1-3 with a seed as its key. The block is the file of the strings, the same in each language.
///
/// ```
/// use bitm_proved::Strings;
/// let names = Strings::build(&["ada", "bob", "eve"])?;
/// assert_eq!((names.contains(b"bob"), names.contains(b"bo"), names.find(b"bo")), (true, false, None));
/// assert_eq!(names.get(names.find(b"eve").unwrap()), Some(&b"eve"[..]));
/// # Ok::<(), bitm_proved::BuildError>(())
/// ```
pub struct Strings<O = Vec<u64>> {
    view: StringsView<'static>,
    held: Held<O>,
}

impl Strings {
    /// Of these strings, in the space that takes least memory. Where two have one hash, another seed may mend it.
    ///
    /// # Errors
    /// `EqualHashes` where two strings are equal, or have one hash; `TooLong` where there are too many, and
    /// `NoMemory` where memory is refused.
    ///
    /// ```
    /// use bitm_proved::{BuildError, EqualPair, Strings};
    /// assert_eq!(Strings::build(&["ada", "bob", ""])?.len(), 3);
    /// let pair = EqualPair::Strings { first: 0, second: 2 };
    /// assert_eq!(Strings::build(&["ada", "bob", "ada"]).err(), Some(BuildError::EqualHashes { left: 2, pair }));
    /// # Ok::<(), BuildError>(())
    /// ```
    pub fn build<S: AsRef<[u8]>>(strings: &[S]) -> Result<Self, BuildError> {
        Self::build_with(strings, 100, 0)
    }

    /// As `build`, with levels of `percent` bits for each 100 strings that are left, and a seed of the hashes.
    ///
    /// # Errors
    /// As of `build`.
    ///
    /// ```
    /// assert_eq!(bitm_proved::Strings::build_with(&["ada", "bob"], 200, 7)?.seed(), 7);
    /// # Ok::<(), bitm_proved::BuildError>(())
    /// ```
    pub fn build_with<S: AsRef<[u8]>>(strings: &[S], percent: u32, seed: u64) -> Result<Self, BuildError> {
        Self::of_block(build(strings, percent, seed)?, BuildError::TooLong { len: strings.len() })
    }
}

owners_of_blocks! { Strings with StringsView;
    "strings", "bitm_proved::Strings::build(&[\"ada\", \"bob\", \"eve\"])?", "3"
}
