//! The kinds of files, and how each is called.
use crate::errors::StoredError;
use crate::ffi::hashes::*;
use crate::sys::block::block_in;
use crate::sys::key_hash::is_of_keys;
use crate::sys::{sections, version2, OK};
use core::fmt;
use core::mem::MaybeUninit;

/// What a file holds.
///
/// ```
/// use bitm_proved::{Kind, Tree};
/// let tree = Tree::build(&[2, 0, 1, 0])?;
/// assert_eq!(Kind::of(tree.block()), Some(Kind::Tree));
/// assert_eq!(Kind::Tree.to_string(), "a tree");
/// # Ok::<(), bitm_proved::BuildError>(())
/// ```
#[derive(Clone, Copy, PartialEq, Eq, Debug)]
#[non_exhaustive]
pub enum Kind {
    /// Bits with their index: an [`Index`](crate::Index).
    ///
    /// ```
    /// use bitm_proved::{Index, Kind, Queries};
    /// assert_eq!(Kind::of(&Index::build([7u64]).to_stored(64)?), Some(Kind::Index));
    /// # Ok::<(), bitm_proved::StoredError>(())
    /// ```
    Index,
    /// An [`EliasFano`](crate::EliasFano) sequence.
    ///
    /// ```
    /// use bitm_proved::{EliasFano, Kind};
    /// assert_eq!(Kind::of(&EliasFano::build(&[2, 3, 5])?.to_stored()?), Some(Kind::Sequence));
    /// # Ok::<(), Box<dyn std::error::Error>>(())
    /// ```
    Sequence,
    /// [`SparseBits`](crate::SparseBits).
    ///
    /// ```
    /// use bitm_proved::{Kind, SparseBits};
    /// assert_eq!(Kind::of(SparseBits::build(&[3, 100], 5000)?.view().block()), Some(Kind::SparseBits));
    /// # Ok::<(), bitm_proved::BuildError>(())
    /// ```
    SparseBits,
    /// A minimal perfect hash, without seeds, whose keys its user hashes: C and C++ store them.
    ///
    /// ```
    /// assert_eq!(bitm_proved::Kind::PerfectHash.to_string(), "a perfect hash");
    /// ```
    PerfectHash,
    /// A [`SeededHash`](crate::SeededHash).
    ///
    /// ```
    /// use bitm_proved::{Kind, SeededHash};
    /// assert_eq!(Kind::of(SeededHash::build(vec![5, 7, 9])?.view().block()), Some(Kind::SeededHash));
    /// # Ok::<(), bitm_proved::BuildError>(())
    /// ```
    SeededHash,
    /// A [`KeyHash`](crate::KeyHash), with seeds or without.
    ///
    /// ```
    /// use bitm_proved::{Kind, KeyHash};
    /// assert_eq!(Kind::of(KeyHash::build(&["ada", "bob"])?.view().block()), Some(Kind::KeyHash));
    /// # Ok::<(), bitm_proved::BuildError>(())
    /// ```
    KeyHash,
    /// A [`Dictionary`](crate::Dictionary).
    ///
    /// ```
    /// use bitm_proved::{Dictionary, Kind};
    /// assert_eq!(Kind::of(Dictionary::build(&[4, 9, 49])?.view().block()), Some(Kind::Dictionary));
    /// # Ok::<(), bitm_proved::BuildError>(())
    /// ```
    Dictionary,
    /// A [`WaveletMatrix`](crate::WaveletMatrix).
    ///
    /// ```
    /// use bitm_proved::{Kind, WaveletMatrix};
    /// assert_eq!(Kind::of(WaveletMatrix::build(&[3, 1, 4])?.view().block()), Some(Kind::WaveletMatrix));
    /// # Ok::<(), bitm_proved::BuildError>(())
    /// ```
    WaveletMatrix,
    /// A [`Tree`](crate::Tree).
    ///
    /// ```
    /// use bitm_proved::{Kind, Tree};
    /// assert_eq!(Kind::of(Tree::build(&[2, 0, 1, 0])?.view().block()), Some(Kind::Tree));
    /// # Ok::<(), bitm_proved::BuildError>(())
    /// ```
    Tree,
    /// A [`Trie`](crate::Trie).
    ///
    /// ```
    /// use bitm_proved::{Kind, Trie};
    /// assert_eq!(Kind::of(Trie::build(&[1, 0], &[97], 8, &[2])?.view().block()), Some(Kind::Trie));
    /// # Ok::<(), bitm_proved::BuildError>(())
    /// ```
    Trie,
    /// A [`TextIndex`](crate::TextIndex).
    ///
    /// ```
    /// use bitm_proved::{Kind, TextIndex};
    /// assert_eq!(Kind::of(TextIndex::build(b"banana", 32)?.view().block()), Some(Kind::TextIndex));
    /// # Ok::<(), bitm_proved::BuildError>(())
    /// ```
    TextIndex,
    /// [`Strings`](crate::Strings).
    ///
    /// ```
    /// use bitm_proved::{Kind, Strings};
    /// assert_eq!(Kind::of(Strings::build(&["ada", "bob"])?.view().block()), Some(Kind::Strings));
    /// # Ok::<(), bitm_proved::BuildError>(())
    /// ```
    Strings,
}

/// By the second word of a block (`docs/FORMAT.md`), where hashes and dictionaries have the same.
const HASHES: u64 = 5;

impl Kind {
    /// What the block, or the file of format version 2, that begins the words holds; `None` where its header or its
    /// directory is damaged, or its kind is not known.
    ///
    /// ```
    /// use bitm_proved::{Kind, Tree};
    /// let mut file = Tree::build(&[2, 0, 1, 0])?.into_owner();
    /// assert_eq!(Kind::of(&file), Some(Kind::Tree));
    /// file[1] ^= 1; // of the header
    /// assert_eq!(Kind::of(&file), None);
    /// # Ok::<(), bitm_proved::BuildError>(())
    /// ```
    pub fn of(file: &[u64]) -> Option<Self> {
        let Some(block) = block_in(file) else { return version2::kind_of(file) };
        sections::section(block, 0).ok()?;
        match block[1] {
            2 => Some(Kind::Index),
            3 => Some(Kind::Sequence),
            4 => Some(Kind::SparseBits),
            HASHES => Some(Self::of_hashes(block)),
            6 => Some(Kind::WaveletMatrix),
            7 => Some(Kind::Tree),
            8 => Some(Kind::TextIndex),
            9 => Some(Kind::Trie),
            10 | 12 => Some(Kind::Strings),
            _ => None,
        }
    }

    fn of_hashes(block: &[u64]) -> Self {
        let (mut seeded, mut seed) = (MaybeUninit::<bitm_seeded_hash>::zeroed(), 0);
        let mut dictionary = MaybeUninit::<bitm_dictionary>::zeroed();
        let (at, len) = (block.as_ptr(), block.len());
        // SAFETY: a slice, and structs of zeros, which the calls may write.
        unsafe {
            if is_of_keys(block) {
                Kind::KeyHash
            } else if bitm_hash_block_open_seeded_bytes(at, len, at.cast(), 8 * len, seeded.as_mut_ptr(), &mut seed)
                == OK
            {
                Kind::SeededHash
            } else if bitm_dictionary_open(at, len, dictionary.as_mut_ptr()) == OK {
                Kind::Dictionary
            } else {
                Kind::PerfectHash
            }
        }
    }

    /// Why the words of a file do not open as this kind.
    pub(crate) fn refused(self, file: &[u64]) -> StoredError {
        match Kind::of(file) {
            Some(held) if held != self => StoredError::OtherKind { held, wanted: self },
            _ => StoredError::NotWhole,
        }
    }
}

impl fmt::Display for Kind {
    fn fmt(&self, f: &mut fmt::Formatter<'_>) -> fmt::Result {
        f.write_str(match self {
            Kind::Index => "an index",
            Kind::Sequence => "a sequence",
            Kind::SparseBits => "sparse bits",
            Kind::PerfectHash => "a perfect hash",
            Kind::SeededHash => "a perfect hash with seeds",
            Kind::KeyHash => "a perfect hash of keys",
            Kind::Dictionary => "a dictionary",
            Kind::WaveletMatrix => "a wavelet matrix",
            Kind::Tree => "a tree",
            Kind::Trie => "a trie",
            Kind::TextIndex => "the index of a text",
            Kind::Strings => "strings",
        })
    }
}
