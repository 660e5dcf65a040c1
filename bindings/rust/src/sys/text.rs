//! Indexes of texts, each in one block of memory: views of borrowed blocks.
pub(crate) mod owned;

use crate::errors::{BuildError, StoredError, WrongTables};
use crate::ffi::blocks::*;
use crate::sys::block::{views, Block, Parts};
use crate::sys::faults::not_below;
use crate::sys::levels::Progress;
use crate::sys::memory::{as_u64_mut, words_of, zeroed};
use crate::sys::{NONE, OK, WRONG};
use alloc::vec::Vec;
use core::fmt;

/// The index of a text in a borrowed block, whose header is right. Its other words may hold anything; `check` tests it.
///
/// `TextIndex` and `bitm text build` make such a block. A pattern is counted in a time that does not depend on how long
/// the text is; occurrences may overlap, and an empty pattern stands at each position, the end too. Calls over letters are
/// for texts of numbers; in an index of bytes a letter is the number of a byte among those that the text uses. Each call
/// is one proved call.
///
/// ```
/// use bitm_proved::{TextIndex, TextIndexView};
/// let file = TextIndex::build(b"she sells sea shells on the sea shore", 32)?.into_owner();
/// let (text, mut positions, mut part) = (TextIndexView::from_words(&file)?, [0; 4], [0; 6]);
/// assert_eq!((text.count(b"sea")?, text.count(b"shop")?), (2, 0));
/// assert_eq!((text.locate(b"sea", 0, &mut positions)?, &positions[..2]), (2, &[10, 28][..]));
/// assert!(text.extract(14, &mut part)? && &part == b"shells");
/// # Ok::<(), Box<dyn std::error::Error>>(())
/// ```
#[derive(Clone, Copy)]
pub struct TextIndexView<'a> {
    block: Block<'a, bitm_text>,
}

views! { TextIndexView of TextIndex;
    |it: bitm_text| it.letters.len, bitm_text_open, bitm_text_check;
    "this index", "bitm_proved::TextIndex::build(b\"banana\", 32)?", "6", "letters of the text",
    "the index of a text: looks at all of it, and walks through it"
}

/// Whether letters were written.
fn written(status: u32) -> Result<bool, WrongTables> {
    match status {
        OK => Ok(true),
        NONE => Ok(false),
        _ => Err(WrongTables),
    }
}

impl<'a> TextIndexView<'a> {
    /// How many bits a letter takes: in an index of bytes, enough to number the different bytes.
    ///
    /// ```
    /// use bitm_proved::{words_from_bytes, TextIndexView};
    /// let block = words_from_bytes(include_bytes!("../../tests/common/sea_shells.block"))?;
    /// assert_eq!(TextIndexView::from_words(&block)?.width(), 4); // of 10 bytes
    /// # Ok::<(), Box<dyn std::error::Error>>(())
    /// ```
    #[inline]
    pub fn width(&self) -> u32 {
        self.block.parts().letters.width as u32
    }

    /// At how many positions of the text a pattern of bytes stands.
    ///
    /// ```
    /// use bitm_proved::{words_from_bytes, TextIndexView};
    /// let block = words_from_bytes(include_bytes!("../../tests/common/sea_shells.block"))?;
    /// assert_eq!(TextIndexView::from_words(&block)?.count(b"se"), Ok(3));
    /// # Ok::<(), Box<dyn std::error::Error>>(())
    /// ```
    pub fn count(&self, pattern: &[u8]) -> Result<usize, WrongTables> {
        // SAFETY: a slice, and the call writes the number where it returns OK.
        let found =
            unsafe { self.block.find(|text, n| bitm_text_count_bytes(text, pattern.as_ptr(), pattern.len(), n)) };
        found?.ok_or(WrongTables)
    }

    /// At how many positions of the text a pattern of letters stands.
    ///
    /// ```
    /// use bitm_proved::{words_from_bytes, TextIndexView};
    /// let block = words_from_bytes(include_bytes!("../../tests/common/sea_shells.block"))?;
    /// assert_eq!(TextIndexView::from_words(&block)?.count_letters(&[8, 2]), Ok(3)); // of " aehlnorst": s, e
    /// # Ok::<(), Box<dyn std::error::Error>>(())
    /// ```
    pub fn count_letters(&self, pattern: &[u64]) -> Result<usize, WrongTables> {
        // SAFETY: as for `count`.
        let found = unsafe { self.block.find(|text, n| bitm_text_count(text, pattern.as_ptr(), pattern.len(), n)) };
        found?.ok_or(WrongTables)
    }

    /// Writes positions at which a pattern of bytes stands, in the order of the rest of the text from there on: without
    /// the first `from` of them, as many as fit; returns how many it wrote. Where the tables are wrong, positions may
    /// have been written.
    ///
    /// ```
    /// use bitm_proved::{words_from_bytes, TextIndexView};
    /// let block = words_from_bytes(include_bytes!("../../tests/common/sea_shells.block"))?;
    /// let (text, mut out) = (TextIndexView::from_words(&block)?, [9; 4]);
    /// assert_eq!((text.locate(b"se", 1, &mut out)?, out), (2, [28, 4, 9, 9]));
    /// # Ok::<(), Box<dyn std::error::Error>>(())
    /// ```
    pub fn locate(&self, pattern: &[u8], from: usize, out: &mut [usize]) -> Result<usize, WrongTables> {
        let (letters, len, room) = (pattern.as_ptr(), pattern.len(), out.len());
        let to = as_u64_mut(out).as_mut_ptr();
        // SAFETY: as for `count`, and a mutable slice, which overlaps no other.
        let found = unsafe { self.block.find(|text, n| bitm_text_locate_bytes(text, letters, len, from, to, room, n)) };
        found?.ok_or(WrongTables)
    }

    /// `locate` of a pattern of letters.
    ///
    /// ```
    /// use bitm_proved::{words_from_bytes, TextIndexView};
    /// let block = words_from_bytes(include_bytes!("../../tests/common/sea_shells.block"))?;
    /// let (text, mut out) = (TextIndexView::from_words(&block)?, [9; 4]);
    /// assert_eq!((text.locate_letters(&[8, 2], 0, &mut out)?, out), (3, [10, 28, 4, 9]));
    /// # Ok::<(), Box<dyn std::error::Error>>(())
    /// ```
    pub fn locate_letters(&self, pattern: &[u64], from: usize, out: &mut [usize]) -> Result<usize, WrongTables> {
        let (letters, len, room) = (pattern.as_ptr(), pattern.len(), out.len());
        let to = as_u64_mut(out).as_mut_ptr();
        // SAFETY: as for `locate`.
        let found = unsafe { self.block.find(|text, n| bitm_text_locate(text, letters, len, from, to, room, n)) };
        found?.ok_or(WrongTables)
    }

    /// Fills `out` with the bytes of the text from a position on; `false`, and nothing is written, where the text has
    /// fewer. An error also where letters are numbers that may have more than 8 bits (`width`). Where the tables are
    /// wrong, letters may have been written.
    ///
    /// ```
    /// use bitm_proved::{words_from_bytes, TextIndexView};
    /// let block = words_from_bytes(include_bytes!("../../tests/common/sea_shells.block"))?;
    /// let (text, mut out) = (TextIndexView::from_words(&block)?, [0; 5]);
    /// assert!(text.extract(4, &mut out)? && &out == b"sells");
    /// assert_eq!(text.extract(33, &mut out), Ok(false));
    /// # Ok::<(), Box<dyn std::error::Error>>(())
    /// ```
    pub fn extract(&self, from: usize, out: &mut [u8]) -> Result<bool, WrongTables> {
        // SAFETY: a view, which borrows its block, and a mutable slice.
        written(unsafe { bitm_text_extract_bytes(self.block.parts(), from, out.as_mut_ptr(), out.len()) })
    }

    /// `extract` of letters of any width.
    ///
    /// ```
    /// use bitm_proved::{words_from_bytes, TextIndexView};
    /// let block = words_from_bytes(include_bytes!("../../tests/common/sea_shells.block"))?;
    /// let (text, mut out) = (TextIndexView::from_words(&block)?, [0; 3]);
    /// assert_eq!((text.extract_letters(0, &mut out)?, out), (true, [8, 3, 2]));
    /// # Ok::<(), Box<dyn std::error::Error>>(())
    /// ```
    pub fn extract_letters(&self, from: usize, out: &mut [u64]) -> Result<bool, WrongTables> {
        // SAFETY: as for `extract`.
        written(unsafe { bitm_text_extract(self.block.parts(), from, out.as_mut_ptr(), out.len()) })
    }
}

impl TextIndexView<'_> {
    pub(crate) fn show(&self, f: &mut fmt::Formatter<'_>, name: &str) -> fmt::Result {
        f.debug_struct(name).field("letters", &self.len()).field("width", &self.block.parts().letters.width).finish()
    }
}

/// The block of the index of bytes: by one call, or by two with a call of `progress` after each.
pub(crate) fn build(text: &[u8], step: u32, progress: Progress<'_>) -> Result<Vec<u64>, BuildError> {
    let (from, len, mut words, mut room) = (text.as_ptr(), text.len(), 0, 0);
    // SAFETY: a slice, and room for two numbers.
    if unsafe { bitm_text_size_bytes(from, len, step, &mut words, &mut room) } != OK {
        return Err(if step == 0 { BuildError::WrongStep } else { BuildError::TooLong { len } });
    }
    let (mut scratch, mut block) = (zeroed::<u32>(room as usize)?, zeroed::<u64>(words as usize)?);
    let (order, room, to, words) = (scratch.as_mut_ptr(), scratch.len(), block.as_mut_ptr(), block.len());
    let status = match progress {
        // SAFETY: a shared and two mutable slices, which do not overlap.
        None => unsafe { bitm_text_build_bytes(from, len, step, order, room, to, words) },
        Some(progress) => in_two_steps(
            progress,
            // SAFETY: as above, of one mutable slice.
            || unsafe { bitm_text_order_bytes(from, len, order, room) },
            // SAFETY: as above.
            || unsafe { bitm_text_build_ordered_bytes(from, len, step, order, room, to, words) },
        ),
    };
    match status {
        OK => Ok(block),
        _ => Err(BuildError::TooLong { len }),
    }
}

/// The status of two calls, the second of which needs the first, with a call of `progress` after each.
fn in_two_steps(
    progress: &mut dyn FnMut(usize, usize),
    first: impl FnOnce() -> u32,
    second: impl FnOnce() -> u32,
) -> u32 {
    let status = first();
    if status != OK {
        return status;
    }
    progress(1, 2);
    let status = second();
    if status == OK {
        progress(2, 2);
    }
    status
}

/// The block of the index of numbers below `letters`, as `build`.
pub(crate) fn build_of_letters(
    text: &[u64],
    letters: u32,
    step: u32,
    progress: Progress<'_>,
) -> Result<Vec<u64>, BuildError> {
    let (from, len, mut words, mut room) = (text.as_ptr(), text.len(), 0, 0);
    // SAFETY: numbers are passed, and room for two.
    if unsafe { bitm_text_size_letters(len, letters, step, &mut words, &mut room) } != OK {
        return Err(if step == 0 { BuildError::WrongStep } else { BuildError::TooLong { len } });
    }
    let (mut scratch, mut block) = (zeroed::<u32>(room as usize)?, zeroed::<u64>(words as usize)?);
    let (order, room, to, words) = (scratch.as_mut_ptr(), scratch.len(), block.as_mut_ptr(), block.len());
    let status = match progress {
        // SAFETY: a shared and two mutable slices, which do not overlap.
        None => unsafe { bitm_text_build(from, len, letters, step, order, room, to, words) },
        Some(progress) => in_two_steps(
            progress,
            // SAFETY: as above, of one mutable slice.
            || unsafe { bitm_text_order(from, len, letters, order, room) },
            // SAFETY: as above.
            || unsafe { bitm_text_build_ordered(from, len, letters, step, order, room, to, words) },
        ),
    };
    match status {
        OK => Ok(block),
        WRONG => Err(outside(text, letters)),
        _ => Err(BuildError::TooLong { len }),
    }
}

/// Why C refuses letters of that alphabet.
fn outside(text: &[u64], letters: u32) -> BuildError {
    match not_below(text, letters.into()) {
        Some(index) => BuildError::LetterOutside { index, letter: text[index], letters },
        None => BuildError::TooLong { len: text.len() },
    }
}
