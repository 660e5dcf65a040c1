//! Sections of a caller's own in a block of any kind.
use crate::errors::StoredError;
use crate::ffi::blocks::*;
use crate::sys::memory::zeroed;
use crate::sys::{NONE, OK, WRONG};
use alloc::vec::Vec;
use core::mem::MaybeUninit;
use core::slice;

/// The first role that no kind of block has. The items of this role and of those after it are bytes, eight in a word.
///
/// ```
/// use bitm_proved::{sections, Tree};
/// let tree = Tree::build(&[2, 0, 1, 0])?;
/// let noted = sections::extended_by_bytes(tree.block(), sections::OWN_ROLE, b"4 nodes")?;
/// assert_eq!(Tree::from_words(noted)?.parent(3), Some(2)); // the tree of before
/// # Ok::<(), Box<dyn std::error::Error>>(())
/// ```
pub const OWN_ROLE: u64 = 65536;

/// A section of a block. What its words hold is not tested: `is_written` does that.
///
/// ```
/// use bitm_proved::{sections, sections::Section, Tree};
/// let tree = Tree::build(&[2, 0, 1, 0])?;
/// let noted = sections::extended(tree.block(), 65536, 7, &[8])?;
/// assert_eq!(sections::section(&noted, 4)?, Some(Section { role: 65536, count: 7, words: &[8] }));
/// # Ok::<(), Box<dyn std::error::Error>>(())
/// ```
#[derive(Clone, Copy, PartialEq, Eq, Debug)]
pub struct Section<'a> {
    /// What its items are, by `docs/FORMAT.md`; from `OWN_ROLE` on what you say.
    ///
    /// ```
    /// use bitm_proved::{sections, Tree};
    /// let tree = Tree::build(&[2, 0, 1, 0])?;
    /// assert_eq!(sections::section(tree.block(), 0)?.map(|it| it.role), Some(1)); // words
    /// # Ok::<(), Box<dyn std::error::Error>>(())
    /// ```
    pub role: u64,
    /// How many items it has.
    ///
    /// ```
    /// use bitm_proved::{sections, Tree};
    /// let tree = Tree::build(&[2, 0, 1, 0])?;
    /// assert_eq!(sections::section(tree.block(), 0)?.map(|it| it.count), Some(1)); // four nodes take a word
    /// # Ok::<(), Box<dyn std::error::Error>>(())
    /// ```
    pub count: usize,
    /// The words that hold the items.
    ///
    /// ```
    /// use bitm_proved::{bytes_of, sections, Tree};
    /// let tree = Tree::build(&[2, 0, 1, 0])?;
    /// let noted = sections::extended_by_bytes(tree.block(), 65536, b"4 nodes")?;
    /// let note = sections::section(&noted, 4)?.unwrap();
    /// assert_eq!(&bytes_of(note.words)[..note.count], b"4 nodes");
    /// # Ok::<(), Box<dyn std::error::Error>>(())
    /// ```
    pub words: &'a [u64],
}

/// Why C does not extend a block.
fn refused(status: u32) -> StoredError {
    match status {
        WRONG => StoredError::NotWhole,
        _ => StoredError::NoSection,
    }
}

/// How many words a block takes with one section more, of `count` items of a role: of four bytes each for the roles 7 and
/// 8, of one for role 15 and those from `OWN_ROLE` on, of eight for all others. One proved call.
///
/// `NotWhole` where the words are no block, or have words after it; `NoSection` where it has 16 sections already, or would
/// be too large.
///
/// ```
/// use bitm_proved::{sections, StoredError, Tree};
/// let tree = Tree::build(&[2, 0, 1, 0])?;
/// let (block, len) = (tree.block(), tree.block().len());
/// assert_eq!(sections::extended_size(block, 65536, 64), Ok(len + 16)); // the directory takes eight words more too
/// assert_eq!(sections::extended_size(block, 65536, 1 << 58), Err(StoredError::NoSection));
/// assert_eq!(sections::extended_size(&block[1..], 65536, 7), Err(StoredError::NotWhole));
/// # Ok::<(), bitm_proved::BuildError>(())
/// ```
pub fn extended_size(block: &[u64], role: u64, count: usize) -> Result<usize, StoredError> {
    let mut words = 0;
    // SAFETY: a slice, and room for one number.
    match unsafe { bitm_block_extended_size(block.as_ptr(), block.len(), role, count as u64, &mut words) } {
        OK => Ok(words as usize),
        status => Err(refused(status)),
    }
}

/// Writes to `to` a copy of the block with one section more, after its own: these words, which hold `count` items of a
/// role. Where items do not fill the last word, let its other bytes be 0. One proved call.
///
/// Errors as for `extended_size`, and nothing is written: `NotWhole` also where a section of the block is not as it was
/// written; `NoSection` also where there are more or fewer words than the items take, or `to` has another length.
///
/// ```
/// use bitm_proved::{sections, StoredError, Tree};
/// let tree = Tree::build(&[2, 0, 1, 0])?;
/// let mut to = vec![0; sections::extended_size(tree.block(), 65536, 7)?];
/// sections::extend(tree.block(), 65536, 7, &[8], &mut to)?;
/// assert_eq!((sections::is_written(&to), Tree::from_words(&to[..])?.len()), (true, 4));
/// let longer = sections::extend(tree.block(), 65536, 7, &[8, 9], &mut to); // seven bytes take a word
/// assert_eq!(longer, Err(StoredError::NoSection));
/// # Ok::<(), Box<dyn std::error::Error>>(())
/// ```
pub fn extend(block: &[u64], role: u64, count: usize, words: &[u64], to: &mut [u64]) -> Result<(), StoredError> {
    let (from, len, own, own_len) = (block.as_ptr(), block.len(), words.as_ptr(), words.len());
    // SAFETY: three slices; the mutable one overlaps no other.
    match unsafe { bitm_block_extend(from, len, role, count as u64, own, own_len, to.as_mut_ptr(), to.len()) } {
        OK => Ok(()),
        status => Err(refused(status)),
    }
}

/// As `extend`, into memory of its own.
///
/// ```
/// use bitm_proved::{sections, StoredError, Tree};
/// let noted = sections::extended(Tree::build(&[2, 0, 1, 0])?.block(), 65536, 7, &[8])?;
/// assert_eq!(Tree::from_words(noted)?.len(), 4);
/// assert_eq!(sections::extended(&[7; 24], 65536, 7, &[8]), Err(StoredError::NotWhole));
/// # Ok::<(), Box<dyn std::error::Error>>(())
/// ```
pub fn extended(block: &[u64], role: u64, count: usize, words: &[u64]) -> Result<Vec<u64>, StoredError> {
    let mut to = zeroed(extended_size(block, role, count)?)?;
    extend(block, role, count, words, &mut to)?;
    Ok(to)
}

/// As `extended`, with a section of bytes: of role 15, or of one from `OWN_ROLE` on.
///
/// ```
/// use bitm_proved::{sections, StoredError, Tree};
/// let tree = Tree::build(&[2, 0, 1, 0])?;
/// let noted = sections::extended_by_bytes(tree.block(), 65536, b"4 nodes")?;
/// assert_eq!(noted, sections::extended(tree.block(), 65536, 7, &[u64::from_le_bytes(*b"4 nodes\0")])?);
/// let of_words = sections::extended_by_bytes(tree.block(), 9, b"4 nodes"); // its items are no bytes
/// assert_eq!(of_words, Err(StoredError::NoSection));
/// # Ok::<(), Box<dyn std::error::Error>>(())
/// ```
pub fn extended_by_bytes(block: &[u64], role: u64, bytes: &[u8]) -> Result<Vec<u64>, StoredError> {
    let mut words = zeroed(bytes.len().div_ceil(8))?;
    for (word, part) in words.iter_mut().zip(bytes.chunks(8)) {
        let mut all = [0; 8];
        all[..part.len()].copy_from_slice(part);
        *word = u64::from_ne_bytes(all);
    }
    extended(block, role, bytes.len(), &words)
}

/// Section i of a block, counted from 0; `None` where it has no more. `NotWhole` where the words are no block, or have
/// words after it. One proved call.
///
/// ```
/// use bitm_proved::{sections, StoredError, Tree};
/// let tree = Tree::build(&[2, 0, 1, 0])?;
/// assert!(sections::section(tree.block(), 3)?.is_some() && sections::section(tree.block(), 4)?.is_none());
/// assert_eq!(sections::section(&[7; 24], 0), Err(StoredError::NotWhole));
/// # Ok::<(), Box<dyn std::error::Error>>(())
/// ```
pub fn section(block: &[u64], i: usize) -> Result<Option<Section<'_>>, StoredError> {
    let mut found = MaybeUninit::<bitm_section>::zeroed();
    // SAFETY: a slice, and a struct of zeros, which the call may write.
    match unsafe { bitm_block_section(block.as_ptr(), block.len(), i, found.as_mut_ptr()) } {
        OK => {
            // SAFETY: zero bytes are a value, and so is what the call has written.
            let it = unsafe { found.assume_init() };
            // SAFETY: where the call returns OK, these words stand in the block, which is borrowed.
            let words = unsafe { slice::from_raw_parts(it.words, it.words_len) };
            Ok(Some(Section { role: it.role, count: it.count as usize, words }))
        }
        NONE => Ok(None),
        status => Err(refused(status)),
    }
}

/// Whether the words are a block of any kind as it was written. Whether its sections hold a structure is for the `check`
/// of its kind to say. One proved call, and one pass over the words.
///
/// ```
/// use bitm_proved::{sections, Tree};
/// let mut block = Tree::build(&[2, 0, 1, 0])?.into_owner();
/// assert!(sections::is_written(&block));
/// *block.last_mut().unwrap() ^= 1;
/// assert!(!sections::is_written(&block));
/// # Ok::<(), bitm_proved::BuildError>(())
/// ```
pub fn is_written(block: &[u64]) -> bool {
    // SAFETY: a slice.
    unsafe { bitm_block_check(block.as_ptr(), block.len()) == OK }
}
