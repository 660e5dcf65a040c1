//! The words of a trie: queries that panic where its block is wrong.
use crate::answers::{answers, by_view};
use crate::errors::WrongTables;
use crate::sys::trie::owned::Trie;
use crate::sys::trie::TrieView;
use core::ops::Range;

answers! { TrieView, Trie;
    /// The node to which a word of bytes leads from the root; `None` exactly where it leads to none. One proved call.
    ///
    /// ```
    /// let trie = bitm_proved::Trie::build(&[2, 0, 1, 0], &[97, 98, 101], 8, &[14])?;
    /// assert_eq!((trie.find(b"be"), trie.find(b""), trie.find(b"e")), (Some(3), Some(0), None));
    /// # Ok::<(), bitm_proved::BuildError>(())
    /// ```
    pub fn find(&self, word: &[u8]) -> Option<usize> = checked_find;

    /// `find` of a word of labels. One proved call.
    ///
    /// ```
    /// let trie = bitm_proved::Trie::build(&[2, 0, 1, 0], &[97, 98, 101], 8, &[14])?;
    /// assert_eq!((trie.find_labels(&[98, 101]), trie.find_labels(&[1 << 40])), (Some(3), None));
    /// # Ok::<(), bitm_proved::BuildError>(())
    /// ```
    pub fn find_labels(&self, word: &[u64]) -> Option<usize> = checked_find_labels;

    /// Whether a word of bytes is one of the words: it leads to a node, and a word ends there. A trie without ends has no
    /// words. Two proved calls.
    ///
    /// ```
    /// let trie = bitm_proved::Trie::of_words(&["a", "b", "be"])?;
    /// assert_eq!((trie.contains(b"be"), trie.contains(b""), trie.contains(b"e")), (true, false, false));
    /// # Ok::<(), bitm_proved::BuildError>(())
    /// ```
    pub fn contains(&self, word: &[u8]) -> bool = checked_contains;

    /// `contains` of a word of labels. Two proved calls.
    ///
    /// ```
    /// let trie = bitm_proved::Trie::build(&[2, 0, 1, 0], &[97, 98, 500], 9, &[12])?;
    /// assert_eq!((trie.contains_labels(&[98, 500]), trie.contains_labels(&[97])), (true, false));
    /// # Ok::<(), bitm_proved::BuildError>(())
    /// ```
    pub fn contains_labels(&self, word: &[u64]) -> bool = checked_contains_labels;

    /// The deepest node to which a beginning of a word of bytes leads from the root, and how many of them lead there: all
    /// of them where the word leads to a node. One proved call.
    ///
    /// ```
    /// let trie = bitm_proved::Trie::build(&[2, 0, 1, 0], &[97, 98, 101], 8, &[14])?;
    /// assert_eq!((trie.longest(b"bee"), trie.longest(b"be"), trie.longest(b"e")), ((3, 2), (3, 2), (0, 0)));
    /// # Ok::<(), bitm_proved::BuildError>(())
    /// ```
    pub fn longest(&self, word: &[u8]) -> (usize, usize) = checked_longest;

    /// `longest` of a word of labels. One proved call.
    ///
    /// ```
    /// let trie = bitm_proved::Trie::build(&[2, 0, 1, 0], &[97, 98, 101], 8, &[14])?;
    /// assert_eq!(trie.longest_labels(&[98, 1]), (2, 1));
    /// # Ok::<(), bitm_proved::BuildError>(())
    /// ```
    pub fn longest_labels(&self, word: &[u64]) -> (usize, usize) = checked_longest_labels;

    /// The label of a node; `None` exactly at the root and where there is no such node. One proved call.
    ///
    /// ```
    /// let trie = bitm_proved::Trie::build(&[2, 0, 1, 0], &[97, 98, 101], 8, &[14])?;
    /// assert_eq!((trie.label(2), trie.label(0), trie.label(4)), (Some(98), None, None));
    /// # Ok::<(), bitm_proved::BuildError>(())
    /// ```
    pub fn label(&self, node: usize) -> Option<u64> = checked_label;

    /// Whether a word ends at a node; `None` exactly where there is no such node, or the trie has no ends. One proved call.
    ///
    /// ```
    /// let trie = bitm_proved::Trie::build(&[2, 0, 1, 0], &[97, 98, 101], 8, &[14])?;
    /// assert_eq!((trie.is_end(3), trie.is_end(0), trie.is_end(4)), (Some(true), Some(false), None));
    /// # Ok::<(), bitm_proved::BuildError>(())
    /// ```
    pub fn is_end(&self, node: usize) -> Option<bool> = checked_is_end;

    /// The child of a node with a label; `None` exactly where none has it, or there is no such node. One proved call.
    ///
    /// ```
    /// let trie = bitm_proved::Trie::build(&[2, 0, 1, 0], &[97, 98, 101], 8, &[14])?;
    /// assert_eq!((trie.child_by_label(0, 98), trie.child_by_label(0, 101)), (Some(2), None));
    /// # Ok::<(), bitm_proved::BuildError>(())
    /// ```
    pub fn child_by_label(&self, node: usize, label: u64) -> Option<usize> = checked_child_by_label;

    /// The parent of a node; `None` exactly at the root and where there is no such node. One proved call.
    ///
    /// ```
    /// let trie = bitm_proved::Trie::build(&[2, 0, 1, 0], &[97, 98, 101], 8, &[14])?;
    /// assert_eq!((trie.parent(3), trie.parent(0)), (Some(2), None));
    /// # Ok::<(), bitm_proved::BuildError>(())
    /// ```
    pub fn parent(&self, node: usize) -> Option<usize> = checked_parent;

    /// How many children a node has; `None` exactly where there is no such node. One proved call.
    ///
    /// ```
    /// let trie = bitm_proved::Trie::build(&[2, 0, 1, 0], &[97, 98, 101], 8, &[14])?;
    /// assert_eq!((trie.degree(0), trie.degree(4)), (Some(2), None));
    /// # Ok::<(), bitm_proved::BuildError>(())
    /// ```
    pub fn degree(&self, node: usize) -> Option<usize> = checked_degree;

    /// The children of a node, which follow one another, by ascending labels; none where there is no such node. Two
    /// proved calls.
    ///
    /// ```
    /// let trie = bitm_proved::Trie::build(&[2, 0, 1, 0], &[97, 98, 101], 8, &[14])?;
    /// assert!(trie.children(0).eq([1, 2]) && trie.children(4).is_empty());
    /// # Ok::<(), bitm_proved::BuildError>(())
    /// ```
    pub fn children(&self, node: usize) -> Range<usize> = checked_children;
}

by_view! { Trie;
    /// How many nodes there are.
    ///
    /// ```
    /// assert_eq!(bitm_proved::Trie::build(&[2, 0, 1, 0], &[97, 98, 101], 8, &[14])?.len(), 4);
    /// # Ok::<(), bitm_proved::BuildError>(())
    /// ```
    pub fn len(&self) -> usize;

    /// Whether there are none, which is so of no trie that was built, and of no block that passes `check`.
    ///
    /// ```
    /// assert!(!bitm_proved::Trie::build(&[0], &[], 8, &[])?.is_empty());
    /// # Ok::<(), bitm_proved::BuildError>(())
    /// ```
    pub fn is_empty(&self) -> bool;

    /// How many bits a label has.
    ///
    /// ```
    /// assert_eq!(bitm_proved::Trie::build(&[2, 0, 1, 0], &[97, 98, 101], 8, &[14])?.width(), 8);
    /// # Ok::<(), bitm_proved::BuildError>(())
    /// ```
    pub fn width(&self) -> u32;

    /// Whether there is a bit for each node that says whether a word ends there.
    ///
    /// ```
    /// assert!(!bitm_proved::Trie::build(&[0], &[], 8, &[])?.has_ends());
    /// # Ok::<(), bitm_proved::BuildError>(())
    /// ```
    pub fn has_ends(&self) -> bool;

    /// The words of the block, which is also the file of this trie.
    ///
    /// ```
    /// use bitm_proved::Trie;
    /// let made = Trie::build(&[1, 0], &[7], 3, &[])?;
    /// assert_eq!(Trie::from_words(made.block())?.block(), made.block());
    /// # Ok::<(), Box<dyn std::error::Error>>(())
    /// ```
    pub fn block(&self) -> &[u64];

    /// Whether the block is as it was written and holds a trie: looks at all of it, four times.
    ///
    /// ```
    /// assert!(bitm_proved::Trie::build(&[2, 0, 1, 0], &[97, 98, 101], 8, &[14])?.check());
    /// # Ok::<(), bitm_proved::BuildError>(())
    /// ```
    pub fn check(&self) -> bool;

    /// How many labels lead from the root to a node; `None` exactly where there is no such node. They are the last of
    /// `out`, where there is room for them. Where the tables are wrong, labels may have been written. One proved call.
    ///
    /// ```
    /// let (trie, mut out) = (bitm_proved::Trie::build(&[2, 0, 1, 0], &[97, 98, 101], 8, &[14])?, [0; 3]);
    /// assert_eq!((trie.word(3, &mut out), out), (Ok(Some(2)), [0, 98, 101]));
    /// # Ok::<(), bitm_proved::BuildError>(())
    /// ```
    pub fn word(&self, node: usize, out: &mut [u64]) -> Result<Option<usize>, WrongTables>;
}
