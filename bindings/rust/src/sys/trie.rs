//! Tries, each in one block of memory: views of borrowed blocks.
pub(crate) mod owned;

use crate::errors::{BuildError, StoredError, TrieFault, WrongTables};
use crate::ffi::blocks::*;
use crate::sys::block::{views, Block, Parts};
use crate::sys::faults::{misfit, unsorted, unsorted_word, wider};
use crate::sys::memory::{one_after_another, words_of, zeroed};
use crate::sys::{NONE, OK};
use alloc::vec::Vec;
use core::fmt;
use core::ops::Range;
use core::ptr::addr_of;

/// A trie in a borrowed block, whose header is right. Its other words may hold anything; `check` tests it.
///
/// A trie is a tree in which each node but the root has a label, and the labels of the children of a node ascend: a
/// word, a list of labels, leads from the root to at most one node. Labels are bytes, or numbers of at most 63 bits;
/// calls that end in `_labels` take words of numbers. Nodes are numbered level by level: the root is node 0.
///
/// ```
/// use bitm_proved::{Trie, TrieView};
/// let made = Trie::of_words(&["a", "b", "be"])?;
/// let trie = TrieView::from_words(made.block())?;
/// assert_eq!((trie.find(b"be"), trie.find(b"bee"), trie.longest(b"bee")), (Some(3), None, (3, 2)));
/// assert_eq!((trie.label(3), trie.is_end(3), trie.parent(3)), (Some(101), Some(true), Some(2)));
/// # Ok::<(), Box<dyn std::error::Error>>(())
/// ```
#[derive(Clone, Copy)]
pub struct TrieView<'a> {
    block: Block<'a, bitm_trie>,
}

views! { TrieView of Trie;
    |it: bitm_trie| it.tree.len, bitm_trie_open, bitm_trie_check;
    "this trie", "bitm_proved::Trie::build(&[2, 0, 1, 0], &[97, 98, 101], 8, &[14])?", "4", "nodes",
    "a trie: looks at all of it, four times"
}

/// The node and how many labels lead there, by the status of the call that wrote them.
fn longest_by(call: impl FnOnce(*mut u64, *mut u64) -> u32) -> Result<(usize, usize), WrongTables> {
    let (mut node, mut count) = (0, 0);
    match call(&mut node, &mut count) {
        OK | NONE => Ok((node as usize, count as usize)),
        _ => Err(WrongTables),
    }
}

impl<'a> TrieView<'a> {
    /// How many bits a label has.
    ///
    /// ```
    /// assert_eq!(bitm_proved::Trie::build(&[2, 0, 1, 0], &[97, 98, 101], 8, &[14])?.view().width(), 8);
    /// # Ok::<(), bitm_proved::BuildError>(())
    /// ```
    #[inline]
    pub fn width(&self) -> u32 {
        self.block.parts().width as u32
    }

    /// Whether there is a bit for each node that says whether a word ends there.
    ///
    /// ```
    /// assert!(bitm_proved::Trie::build(&[2, 0, 1, 0], &[97, 98, 101], 8, &[14])?.view().has_ends());
    /// # Ok::<(), bitm_proved::BuildError>(())
    /// ```
    #[inline]
    pub fn has_ends(&self) -> bool {
        self.block.parts().ends_len > 0
    }

    /// The label of a node; `None` exactly at the root and where there is no such node.
    ///
    /// ```
    /// let trie = bitm_proved::Trie::build(&[2, 0, 1, 0], &[97, 98, 101], 8, &[14])?;
    /// assert_eq!((trie.view().checked_label(3), trie.view().checked_label(0)), (Ok(Some(101)), Ok(None)));
    /// # Ok::<(), bitm_proved::BuildError>(())
    /// ```
    #[inline]
    pub fn checked_label(&self, node: usize) -> Result<Option<u64>, WrongTables> {
        // SAFETY: the call writes the number where it returns OK.
        unsafe { self.block.query(|trie, out| bitm_trie_label(trie, node, out)) }
    }

    /// Whether a word ends at a node; `None` exactly where there is no such node, or the trie has no ends.
    ///
    /// ```
    /// let trie = bitm_proved::Trie::build(&[2, 0, 1, 0], &[97, 98, 101], 8, &[14])?;
    /// assert_eq!((trie.view().checked_is_end(3), trie.view().checked_is_end(0)), (Ok(Some(true)), Ok(Some(false))));
    /// # Ok::<(), bitm_proved::BuildError>(())
    /// ```
    #[inline]
    pub fn checked_is_end(&self, node: usize) -> Result<Option<bool>, WrongTables> {
        // SAFETY: the call writes the number where it returns OK.
        let found = unsafe { self.block.query(|trie, out| bitm_trie_is_end(trie, node, out)) };
        Ok(found?.map(|it| it == 1))
    }

    /// The child of a node with a label; `None` exactly where none has it, or there is no such node.
    ///
    /// ```
    /// let trie = bitm_proved::Trie::build(&[2, 0, 1, 0], &[97, 98, 101], 8, &[14])?;
    /// let view = trie.view();
    /// assert_eq!((view.checked_child_by_label(0, 98), view.checked_child_by_label(0, 101)), (Ok(Some(2)), Ok(None)));
    /// # Ok::<(), bitm_proved::BuildError>(())
    /// ```
    #[inline]
    pub fn checked_child_by_label(&self, node: usize, label: u64) -> Result<Option<usize>, WrongTables> {
        // SAFETY: the call writes the number where it returns OK.
        unsafe { self.block.find(|trie, out| bitm_trie_child(trie, node, label, out)) }
    }

    /// The node to which a word of bytes leads from the root; `None` exactly where it leads to none.
    ///
    /// ```
    /// let trie = bitm_proved::Trie::build(&[2, 0, 1, 0], &[97, 98, 101], 8, &[14])?;
    /// assert_eq!((trie.view().checked_find(b"be"), trie.view().checked_find(b"e")), (Ok(Some(3)), Ok(None)));
    /// # Ok::<(), bitm_proved::BuildError>(())
    /// ```
    #[inline]
    pub fn checked_find(&self, word: &[u8]) -> Result<Option<usize>, WrongTables> {
        // SAFETY: a slice, and the call writes the number where it returns OK.
        unsafe { self.block.find(|trie, out| bitm_trie_find_bytes(trie, word.as_ptr(), word.len(), out)) }
    }

    /// `checked_find` of a word of labels.
    ///
    /// ```
    /// let trie = bitm_proved::Trie::build(&[2, 0, 1, 0], &[97, 98, 101], 8, &[14])?;
    /// assert_eq!(trie.view().checked_find_labels(&[98, 101]), Ok(Some(3)));
    /// # Ok::<(), bitm_proved::BuildError>(())
    /// ```
    #[inline]
    pub fn checked_find_labels(&self, word: &[u64]) -> Result<Option<usize>, WrongTables> {
        // SAFETY: as for `checked_find`.
        unsafe { self.block.find(|trie, out| bitm_trie_find(trie, word.as_ptr(), word.len(), out)) }
    }

    /// Whether a word of bytes is one of the words: it leads to a node, and a word ends there. A trie without ends has no
    /// words.
    ///
    /// ```
    /// let trie = bitm_proved::Trie::of_words(&["a", "b", "be"])?;
    /// assert_eq!((trie.view().checked_contains(b"be"), trie.view().checked_contains(b"bee")), (Ok(true), Ok(false)));
    /// # Ok::<(), bitm_proved::BuildError>(())
    /// ```
    #[inline]
    pub fn checked_contains(&self, word: &[u8]) -> Result<bool, WrongTables> {
        self.ends_at(self.checked_find(word)?)
    }

    /// `checked_contains` of a word of labels.
    ///
    /// ```
    /// let trie = bitm_proved::Trie::of_words(&["a", "b", "be"])?;
    /// assert_eq!(trie.view().checked_contains_labels(&[98, 101]), Ok(true));
    /// # Ok::<(), bitm_proved::BuildError>(())
    /// ```
    #[inline]
    pub fn checked_contains_labels(&self, word: &[u64]) -> Result<bool, WrongTables> {
        self.ends_at(self.checked_find_labels(word)?)
    }

    fn ends_at(&self, node: Option<usize>) -> Result<bool, WrongTables> {
        Ok(node.map_or(Ok(None), |node| self.checked_is_end(node))? == Some(true))
    }

    /// The deepest node to which a beginning of a word of bytes leads from the root, and how many of them lead there: all
    /// of them where the word leads to a node. Of a block of no nodes, which is never built, it is `(0, 0)`.
    ///
    /// ```
    /// let trie = bitm_proved::Trie::build(&[2, 0, 1, 0], &[97, 98, 101], 8, &[14])?;
    /// assert_eq!((trie.view().checked_longest(b"bee"), trie.view().checked_longest(b"e")), (Ok((3, 2)), Ok((0, 0))));
    /// # Ok::<(), bitm_proved::BuildError>(())
    /// ```
    #[inline]
    pub fn checked_longest(&self, word: &[u8]) -> Result<(usize, usize), WrongTables> {
        // SAFETY: a view, which borrows its block, a slice, and room for two numbers.
        longest_by(|node, n| unsafe { bitm_trie_longest_bytes(self.block.parts(), word.as_ptr(), word.len(), node, n) })
    }

    /// `checked_longest` of a word of labels.
    ///
    /// ```
    /// let trie = bitm_proved::Trie::build(&[2, 0, 1, 0], &[97, 98, 101], 8, &[14])?;
    /// assert_eq!(trie.view().checked_longest_labels(&[98, 1]), Ok((2, 1)));
    /// # Ok::<(), bitm_proved::BuildError>(())
    /// ```
    #[inline]
    pub fn checked_longest_labels(&self, word: &[u64]) -> Result<(usize, usize), WrongTables> {
        // SAFETY: as for `checked_longest`.
        longest_by(|node, n| unsafe { bitm_trie_longest(self.block.parts(), word.as_ptr(), word.len(), node, n) })
    }

    /// How many labels lead from the root to a node; `None` exactly where there is no such node. They are the last of
    /// `out`, where there is room for them. Where the tables are wrong, labels may have been written.
    ///
    /// ```
    /// let (trie, mut out) = (bitm_proved::Trie::build(&[2, 0, 1, 0], &[97, 98, 101], 8, &[14])?, [0; 3]);
    /// assert_eq!((trie.view().word(3, &mut out), out), (Ok(Some(2)), [0, 98, 101]));
    /// # Ok::<(), bitm_proved::BuildError>(())
    /// ```
    pub fn word(&self, node: usize, out: &mut [u64]) -> Result<Option<usize>, WrongTables> {
        let (to, room) = (out.as_mut_ptr(), out.len());
        // SAFETY: a mutable slice, and the call writes the number where it returns OK.
        unsafe { self.block.find(|trie, n| bitm_trie_word(trie, node, to, room, n)) }
    }

    /// The parent of a node; `None` exactly at the root and where there is no such node.
    ///
    /// ```
    /// let trie = bitm_proved::Trie::build(&[2, 0, 1, 0], &[97, 98, 101], 8, &[14])?;
    /// assert_eq!((trie.view().checked_parent(3), trie.view().checked_parent(0)), (Ok(Some(2)), Ok(None)));
    /// # Ok::<(), bitm_proved::BuildError>(())
    /// ```
    #[inline]
    pub fn checked_parent(&self, node: usize) -> Result<Option<usize>, WrongTables> {
        // SAFETY: the tree of the trie is passed, and the call writes the number where it returns OK.
        unsafe { self.block.find(|trie, out| bitm_tree_parent(addr_of!((*trie).tree), node, out)) }
    }

    /// How many children a node has; `None` exactly where there is no such node.
    ///
    /// ```
    /// let trie = bitm_proved::Trie::build(&[2, 0, 1, 0], &[97, 98, 101], 8, &[14])?;
    /// assert_eq!((trie.view().checked_degree(0), trie.view().checked_degree(4)), (Ok(Some(2)), Ok(None)));
    /// # Ok::<(), bitm_proved::BuildError>(())
    /// ```
    #[inline]
    pub fn checked_degree(&self, node: usize) -> Result<Option<usize>, WrongTables> {
        // SAFETY: as for `checked_parent`.
        unsafe { self.block.find(|trie, out| bitm_tree_degree(addr_of!((*trie).tree), node, out)) }
    }

    /// The children of a node, which follow one another, by ascending labels; none where there is no such node.
    ///
    /// ```
    /// let trie = bitm_proved::Trie::build(&[2, 0, 1, 0], &[97, 98, 101], 8, &[14])?;
    /// assert_eq!((trie.view().checked_children(0), trie.view().checked_children(9)), (Ok(1..3), Ok(0..0)));
    /// # Ok::<(), bitm_proved::BuildError>(())
    /// ```
    pub fn checked_children(&self, node: usize) -> Result<Range<usize>, WrongTables> {
        let degree = self.checked_degree(node)?.unwrap_or(0);
        if degree == 0 {
            return Ok(0..0);
        }
        // SAFETY: as for `checked_parent`.
        let first = unsafe { self.block.find(|trie, out| bitm_tree_child(addr_of!((*trie).tree), node, 0, out)) };
        Ok(first?.map_or(0..0, |first| first..first + degree))
    }
}

impl TrieView<'_> {
    pub(crate) fn show(&self, f: &mut fmt::Formatter<'_>, name: &str) -> fmt::Result {
        f.debug_struct(name).field("nodes", &self.len()).field("width", &self.block.parts().width).finish()
    }
}

/// The block of the trie of these degrees, labels and ends.
pub(crate) fn build(degrees: &[u64], labels: &[u64], width: u32, ends: &[u64]) -> Result<Vec<u64>, BuildError> {
    let mut words = 0;
    // SAFETY: numbers are passed, and room for one.
    if unsafe { bitm_trie_size(degrees.len(), width, !ends.is_empty(), &mut words) } != OK {
        return Err(fault_of(degrees, labels, width, ends));
    }
    let mut block = zeroed(words as usize)?;
    let (from, of, at) =
        ((degrees.as_ptr(), degrees.len()), (labels.as_ptr(), labels.len()), (ends.as_ptr(), ends.len()));
    let (to, len) = (block.as_mut_ptr(), block.len());
    // SAFETY: three shared slices and a mutable one, which overlaps none.
    match unsafe { bitm_trie_build(from.0, from.1, of.0, of.1, width, at.0, at.1, to, len) } {
        OK => Ok(block),
        _ => Err(fault_of(degrees, labels, width, ends)),
    }
}

/// Why these are the parts of no trie: lengths first, as C looks at them.
fn fault_of(degrees: &[u64], labels: &[u64], width: u32, ends: &[u64]) -> BuildError {
    let (nodes, node) = (degrees.len(), misfit(degrees));
    BuildError::NotATrie(if !(1..=63).contains(&width) {
        TrieFault::Width { width }
    } else if labels.len() != nodes.saturating_sub(1) {
        TrieFault::Labels { labels: labels.len(), nodes }
    } else if !ends.is_empty() && ends.len() != nodes.div_ceil(64) {
        TrieFault::Ends { words: ends.len(), nodes }
    } else if nodes == 0 || node.is_some() {
        TrieFault::NoTree { node }
    } else if let Some(index) = wider(labels, width) {
        TrieFault::WideLabel { index, label: labels[index], width }
    } else if let Some(index) = falling(degrees, labels) {
        TrieFault::NotRising { index, label: labels[index], before: labels[index - 1] }
    } else {
        return BuildError::TooLong { len: nodes };
    })
}

/// The first label that is not above the one before it, of the same parent; the degrees form a tree.
fn falling(degrees: &[u64], labels: &[u64]) -> Option<usize> {
    let mut begin = 0;
    for degree in degrees.iter().map(|it| *it as usize) {
        let own = labels.get(begin..)?.get(..degree)?;
        if let Some(index) = unsorted(own, true) {
            return Some(begin + index);
        }
        begin += degree;
    }
    None
}

/// The block of the trie of these words.
pub(crate) fn grown<W: AsRef<[u8]>>(words: &[W]) -> Result<Vec<u64>, BuildError> {
    let (bytes, starts) = one_after_another(words)?;
    let nodes = nodes_of(&bytes, &starts)?;
    let (too_long, mut size) = (BuildError::TooLong { len: bytes.len() }, 0);
    // SAFETY: numbers are passed, and room for one.
    if unsafe { bitm_trie_size(nodes, 8, true, &mut size) } != OK {
        return Err(too_long);
    }
    let mut scratch = zeroed::<u64>(3 * nodes - 2 + nodes.div_ceil(64))?;
    let mut block = zeroed::<u64>(size as usize)?;
    let (at, begin) = ((bytes.as_ptr(), bytes.len()), (starts.as_ptr(), starts.len()));
    let ((room, room_len), (to, len)) = ((scratch.as_mut_ptr(), scratch.len()), (block.as_mut_ptr(), block.len()));
    // SAFETY: two shared slices, and two mutable ones, which overlap neither them nor each other.
    match unsafe { bitm_trie_build_words(at.0, at.1, begin.0, begin.1, room, room_len, to, len) } {
        OK => Ok(block),
        _ => Err(too_long),
    }
}

/// How many nodes the trie of such words has.
fn nodes_of(bytes: &[u8], starts: &[u64]) -> Result<usize, BuildError> {
    let mut nodes = 0;
    // SAFETY: shared slices, and room for a number.
    match unsafe { bitm_trie_nodes_of_words(bytes.as_ptr(), bytes.len(), starts.as_ptr(), starts.len(), &mut nodes) } {
        OK => Ok(nodes as usize),
        _ => Err(unsorted_word(bytes, starts)
            .map_or(BuildError::TooLong { len: bytes.len() }, |index| BuildError::UnsortedWord { index })),
    }
}
