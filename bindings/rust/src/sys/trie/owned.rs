//! A trie and the owner of its block.
use crate::errors::{made, BuildError, StoredError};
use crate::sys::held::Held;
use crate::sys::memory::copied;
use crate::sys::owner::owners_of_blocks;
use crate::sys::trie::{build, grown, TrieView};
use alloc::vec::Vec;
use core::fmt;

/// A trie, a set of words, and the owner of its block.
///
/// A trie is a tree in which each node but the root has a label, and the labels of the children of a node ascend: a
/// word, a list of labels, leads from the root to at most one node. Labels are bytes, or numbers of at most 63 bits;
/// calls that end in `_labels` take words of numbers. The block is the file of the trie, the same in each language.
///
/// ```
/// use bitm_proved::Trie;
/// let trie = Trie::of_words(&["a", "b", "be"])?;
/// assert_eq!((trie.contains(b"be"), trie.contains(b"e"), trie.contains(b"")), (true, false, false));
/// assert_eq!((trie.find(b"be"), trie.find(b"bee"), trie.longest(b"bee")), (Some(3), None, (3, 2)));
/// assert_eq!((trie.is_end(3), trie.child_by_label(0, 98), trie.children(0)), (Some(true), Some(2), 1..3));
/// # Ok::<(), bitm_proved::BuildError>(())
/// ```
pub struct Trie<O = Vec<u64>> {
    view: TrieView<'static>,
    held: Held<O>,
}

impl Trie {
    /// The trie of these words, with labels of 8 bits and ends. They ascend by their bytes, each once, as `sort` and
    /// `dedup` leave them; the empty word may be among them.
    ///
    /// Needs memory for a copy of the words, and three numbers a node and one a word besides.
    ///
    /// # Errors
    /// `UnsortedWord` exactly where a word does not stand after the one before it, `TooLong` where they have too many
    /// nodes, and `NoMemory` where memory is refused.
    ///
    /// ```
    /// use bitm_proved::{BuildError, Trie};
    /// let mut words = vec!["to", "tea", "a", "ten", "tea"];
    /// assert_eq!(Trie::of_words(&words).err(), Some(BuildError::UnsortedWord { index: 1 }));
    /// words.sort();
    /// words.dedup();
    /// let trie = Trie::of_words(&words)?;
    /// assert_eq!((trie.contains(b"tea"), trie.contains(b"te"), trie.longest(b"tend")), (true, false, (6, 3)));
    /// # Ok::<(), BuildError>(())
    /// ```
    pub fn of_words<W: AsRef<[u8]>>(words: &[W]) -> Result<Self, BuildError> {
        Self::of_block(grown(words)?, BuildError::TooLong { len: words.len() })
    }

    /// The trie whose nodes have these degrees, and those from 1 on these labels, of `width` bits each, 1 to 63. The ends
    /// are a bit for each node, lowest first, which says whether a word ends there; or no words.
    ///
    /// # Errors
    /// `NotATrie` exactly where the degrees form no tree (`Tree::build`), there is not one label for each node but the
    /// root, a label has more bits than the width, the labels of the children of a node do not ascend, or the width or
    /// the number of ends is wrong. `NoMemory` where memory is refused.
    ///
    /// ```
    /// use bitm_proved::{BuildError, Trie, TrieFault};
    /// assert_eq!(Trie::build(&[2, 0, 1, 0], &[97, 98, 101], 8, &[14])?.find(b"be"), Some(3));
    /// let fault = TrieFault::NotRising { index: 1, label: 97, before: 98 }; // b before a
    /// assert_eq!(Trie::build(&[2, 0, 1, 0], &[98, 97, 101], 8, &[]).err(), Some(BuildError::NotATrie(fault)));
    /// # Ok::<(), BuildError>(())
    /// ```
    pub fn build(degrees: &[u64], labels: &[u64], width: u32, ends: &[u64]) -> Result<Self, BuildError> {
        Self::of_block(build(degrees, labels, width, ends)?, BuildError::TooLong { len: degrees.len() })
    }
}

owners_of_blocks! { Trie with TrieView;
    "trie", "bitm_proved::Trie::build(&[2, 0, 1, 0], &[97, 98, 101], 8, &[14])?", "4"
}
