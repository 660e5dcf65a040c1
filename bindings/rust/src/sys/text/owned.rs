//! The index of a text and the owner of its block.
use crate::errors::{made, BuildError, StoredError};
use crate::sys::held::Held;
use crate::sys::memory::copied;
use crate::sys::owner::owners_of_blocks;
use crate::sys::text::{build, build_of_letters, TextIndexView};
use alloc::vec::Vec;
use core::fmt;

/// The index of a text, and the owner of its block, which is the file of the index, the same in each language. `view` has
/// the queries.
///
/// ```
/// use bitm_proved::TextIndex;
/// let text = TextIndex::build(b"she sells sea shells on the sea shore", 32)?;
/// assert_eq!(text.view().count(b"sea"), Ok(2));
/// # Ok::<(), bitm_proved::BuildError>(())
/// ```
pub struct TextIndex<O = Vec<u64>> {
    view: TextIndexView<'static>,
    held: Held<O>,
}

impl TextIndex {
    /// Of bytes. A letter takes as many bits as the number of different bytes needs. A position is kept each `step`
    /// bytes, 32 say: a larger step takes less memory, and more time to find a position or a part. Takes linear time,
    /// and eight bytes for each of the text while it works.
    ///
    /// # Errors
    /// `WrongStep` where the step is 0, `TooLong` where the text has 2^32 - 1 bytes or more, and `NoMemory` where
    /// memory is refused.
    ///
    /// ```
    /// use bitm_proved::TextIndex;
    /// let text = TextIndex::build(b"banana", 32)?;
    /// assert_eq!((text.view().count(b"ana"), text.view().width()), (Ok(2), 2));
    /// # Ok::<(), bitm_proved::BuildError>(())
    /// ```
    pub fn build(text: &[u8], step: u32) -> Result<Self, BuildError> {
        Self::of_block(build(text, step, None)?, BuildError::TooLong { len: text.len() })
    }

    /// Of numbers below `letters`; a word is kept for each letter.
    ///
    /// # Errors
    /// As of `build`; `LetterOutside` where a letter is not less than `letters`.
    ///
    /// ```
    /// use bitm_proved::TextIndex;
    /// let text = TextIndex::build_of_letters(&[1, 0, 2000, 0, 2000, 0], 2001, 32)?;
    /// assert_eq!((text.view().count_letters(&[0, 2000]), text.view().width()), (Ok(2), 11));
    /// # Ok::<(), bitm_proved::BuildError>(())
    /// ```
    pub fn build_of_letters(text: &[u64], letters: u32, step: u32) -> Result<Self, BuildError> {
        let otherwise = BuildError::TooLong { len: text.len() };
        Self::of_block(build_of_letters(text, letters, step, None)?, otherwise)
    }

    /// As `build`, in two steps: `progress(done, total)` is called after each, at last with 2 of 2. Where it panics,
    /// all memory is freed. The block is the same.
    ///
    /// # Errors
    /// As of `build`.
    ///
    /// ```
    /// use bitm_proved::TextIndex;
    /// let mut steps = vec![];
    /// let text = TextIndex::build_with_progress(b"banana", 32, |done, total| steps.push((done, total)))?;
    /// assert_eq!((steps, text.view().count(b"ana")), (vec![(1, 2), (2, 2)], Ok(2)));
    /// # Ok::<(), bitm_proved::BuildError>(())
    /// ```
    pub fn build_with_progress(
        text: &[u8],
        step: u32,
        mut progress: impl FnMut(usize, usize),
    ) -> Result<Self, BuildError> {
        let otherwise = BuildError::TooLong { len: text.len() };
        Self::of_block(build(text, step, Some(&mut progress))?, otherwise)
    }

    /// As `build_of_letters`, with calls of `progress` as for `build_with_progress`.
    ///
    /// # Errors
    /// As of `build_of_letters`.
    ///
    /// ```
    /// use bitm_proved::TextIndex;
    /// let (text, mut last) = ([1, 0, 2, 0, 2, 0], (0, 0));
    /// let text = TextIndex::build_of_letters_with_progress(&text, 3, 32, |done, total| last = (done, total))?;
    /// assert_eq!((last, text.view().count_letters(&[0, 2])), ((2, 2), Ok(2)));
    /// # Ok::<(), bitm_proved::BuildError>(())
    /// ```
    pub fn build_of_letters_with_progress(
        text: &[u64],
        letters: u32,
        step: u32,
        mut progress: impl FnMut(usize, usize),
    ) -> Result<Self, BuildError> {
        let otherwise = BuildError::TooLong { len: text.len() };
        Self::of_block(build_of_letters(text, letters, step, Some(&mut progress))?, otherwise)
    }
}

owners_of_blocks! { TextIndex with TextIndexView;
    "index", "bitm_proved::TextIndex::build(b\"banana\", 32)?", "6"
}
