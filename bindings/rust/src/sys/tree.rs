//! Trees (LOUDS), each in one block of memory: views of borrowed blocks.
pub(crate) mod owned;

use crate::errors::{BuildError, ListError, StoredError, WrongTables};
use crate::ffi::blocks::*;
use crate::ffi::words::bitm_list_counts;
use crate::sys::block::{views, Block, Parts};
use crate::sys::faults::misfit;
use crate::sys::lists::{pairs, query_list};
use crate::sys::memory::{as_u64, as_u64_mut, words_of, zeroed};
use crate::sys::{OK, WRONG};
use alloc::vec::Vec;
use core::fmt;
use core::ops::Range;

type One = unsafe extern "C" fn(*const bitm_tree, usize, *mut u64) -> u32;
type Many = unsafe extern "C" fn(*const bitm_tree, *const u64, usize, *mut u64, usize, *mut bitm_list_counts) -> u32;

/// A tree in a borrowed block, whose header is right. Its other words may hold anything; `check` tests it.
///
/// Nodes are numbered level by level: the root is node 0, and the children of a node follow one another, after the
/// children of the node before it.
///
/// ```
/// use bitm_proved::{Tree, TreeView};
/// let made = Tree::build(&[2, 0, 1, 0])?; // how many children each node has: 0 has 1 and 2, and 2 has 3
/// let tree = TreeView::from_words(made.block())?;
/// assert_eq!((tree.parent(3), tree.child(0, 1), tree.degree(0), tree.children(0)), (Some(2), Some(2), Some(2), 1..3));
/// assert!(tree.check() && tree.len() == 4);
/// # Ok::<(), Box<dyn std::error::Error>>(())
/// ```
#[derive(Clone, Copy)]
pub struct TreeView<'a> {
    block: Block<'a, bitm_tree>,
}

views! { TreeView of Tree;
    |it: bitm_tree| it.len, bitm_tree_open, bitm_tree_check;
    "this tree", "bitm_proved::Tree::build(&[2, 0, 1, 0])?", "4", "nodes",
    "a tree: looks at all of it, three times"
}

impl<'a> TreeView<'a> {
    #[inline(always)]
    fn call(&self, call: One, node: usize) -> Result<Option<usize>, WrongTables> {
        // SAFETY: a call writes the number where it returns OK.
        unsafe { self.block.find(|tree, out| call(tree, node, out)) }
    }

    /// The parent of a node; `None` exactly at the root and where there is no such node.
    ///
    /// ```
    /// let tree = bitm_proved::Tree::build(&[2, 0, 1, 0])?;
    /// assert_eq!((tree.view().checked_parent(3), tree.view().checked_parent(0)), (Ok(Some(2)), Ok(None)));
    /// # Ok::<(), bitm_proved::BuildError>(())
    /// ```
    #[inline]
    pub fn checked_parent(&self, node: usize) -> Result<Option<usize>, WrongTables> {
        self.call(bitm_tree_parent, node)
    }

    /// Child `k` of a node, counted from 0; `None` exactly where it has no more than `k` children, or there is no such
    /// node.
    ///
    /// ```
    /// let tree = bitm_proved::Tree::build(&[2, 0, 1, 0])?;
    /// assert_eq!((tree.view().checked_child(0, 1), tree.view().checked_child(0, 2)), (Ok(Some(2)), Ok(None)));
    /// # Ok::<(), bitm_proved::BuildError>(())
    /// ```
    #[inline]
    pub fn checked_child(&self, node: usize, k: usize) -> Result<Option<usize>, WrongTables> {
        // SAFETY: the call writes the number where it returns OK.
        unsafe { self.block.find(|tree, out| bitm_tree_child(tree, node, k, out)) }
    }

    /// How many children a node has; `None` exactly where there is no such node.
    ///
    /// ```
    /// let tree = bitm_proved::Tree::build(&[2, 0, 1, 0])?;
    /// assert_eq!((tree.view().checked_degree(0), tree.view().checked_degree(4)), (Ok(Some(2)), Ok(None)));
    /// # Ok::<(), bitm_proved::BuildError>(())
    /// ```
    #[inline]
    pub fn checked_degree(&self, node: usize) -> Result<Option<usize>, WrongTables> {
        self.call(bitm_tree_degree, node)
    }

    /// The children of a node, which follow one another; none where there is no such node.
    ///
    /// ```
    /// let tree = bitm_proved::Tree::build(&[2, 0, 1, 0])?;
    /// assert_eq!((tree.view().checked_children(0), tree.view().checked_children(9)), (Ok(1..3), Ok(0..0)));
    /// # Ok::<(), bitm_proved::BuildError>(())
    /// ```
    pub fn checked_children(&self, node: usize) -> Result<Range<usize>, WrongTables> {
        let degree = self.checked_degree(node)?.unwrap_or(0);
        let first = if degree > 0 { self.checked_child(node, 0)? } else { None };
        Ok(first.map_or(0..0, |first| first..first + degree))
    }

    /// Whether a node has no children; `None` exactly where there is no such node.
    ///
    /// ```
    /// let tree = bitm_proved::Tree::build(&[2, 0, 1, 0])?;
    /// assert_eq!((tree.view().checked_is_leaf(1), tree.view().checked_is_leaf(4)), (Ok(Some(true)), Ok(None)));
    /// # Ok::<(), bitm_proved::BuildError>(())
    /// ```
    #[inline]
    pub fn checked_is_leaf(&self, node: usize) -> Result<Option<bool>, WrongTables> {
        Ok(self.call(bitm_tree_is_leaf, node)?.map(|it| it == 1))
    }

    /// The child of a node's parent after it; `None` exactly at the last child, at the root and where there is no such
    /// node.
    ///
    /// ```
    /// let tree = bitm_proved::Tree::build(&[2, 0, 1, 0])?;
    /// let view = tree.view();
    /// assert_eq!((view.checked_next_sibling(1), view.checked_next_sibling(2)), (Ok(Some(2)), Ok(None)));
    /// # Ok::<(), bitm_proved::BuildError>(())
    /// ```
    #[inline]
    pub fn checked_next_sibling(&self, node: usize) -> Result<Option<usize>, WrongTables> {
        self.call(bitm_tree_next_sibling, node)
    }

    /// The child of a node's parent before it; `None` exactly at the first child, at the root and where there is no
    /// such node.
    ///
    /// ```
    /// let tree = bitm_proved::Tree::build(&[2, 0, 1, 0])?;
    /// let view = tree.view();
    /// assert_eq!((view.checked_previous_sibling(2), view.checked_previous_sibling(1)), (Ok(Some(1)), Ok(None)));
    /// # Ok::<(), bitm_proved::BuildError>(())
    /// ```
    #[inline]
    pub fn checked_previous_sibling(&self, node: usize) -> Result<Option<usize>, WrongTables> {
        self.call(bitm_tree_previous_sibling, node)
    }

    /// Which child of its parent a node is, counted from 0; `None` exactly at the root and where there is no such node.
    ///
    /// ```
    /// let tree = bitm_proved::Tree::build(&[2, 0, 1, 0])?;
    /// assert_eq!((tree.view().checked_child_rank(2), tree.view().checked_child_rank(0)), (Ok(Some(1)), Ok(None)));
    /// # Ok::<(), bitm_proved::BuildError>(())
    /// ```
    #[inline]
    pub fn checked_child_rank(&self, node: usize) -> Result<Option<usize>, WrongTables> {
        self.call(bitm_tree_child_rank, node)
    }

    fn list(&self, call: Many, nodes: &[usize], out: &mut [usize]) -> Result<usize, ListError> {
        let (from, len) = (as_u64(nodes).as_ptr(), nodes.len());
        query_list(len, as_u64_mut(out), |to, room, counts| {
            // SAFETY: a view, a shared and a mutable slice, which do not overlap, and room for the counts.
            unsafe { call(self.block.parts(), from, len, to, room, counts) }
        })
    }

    /// The parents of a list of nodes; returns how many have none, written as `NO_ANSWER`.
    ///
    /// ```
    /// use bitm_proved::{Tree, NO_ANSWER};
    /// let (tree, mut out) = (Tree::build(&[2, 0, 1, 0])?, [9; 3]);
    /// assert_eq!(tree.view().parent_list(&[0, 1, 3], &mut out), Ok(1));
    /// assert_eq!(out, [NO_ANSWER, 0, 2]);
    /// # Ok::<(), bitm_proved::BuildError>(())
    /// ```
    pub fn parent_list(&self, nodes: &[usize], out: &mut [usize]) -> Result<usize, ListError> {
        self.list(bitm_tree_parent_list, nodes, out)
    }

    /// How many children each node of a list has; returns for how many there is none, written as `NO_ANSWER`.
    ///
    /// ```
    /// use bitm_proved::{Tree, NO_ANSWER};
    /// let (tree, mut out) = (Tree::build(&[2, 0, 1, 0])?, [9; 3]);
    /// assert_eq!(tree.view().degree_list(&[0, 1, 4], &mut out), Ok(1));
    /// assert_eq!(out, [2, 0, NO_ANSWER]);
    /// # Ok::<(), bitm_proved::BuildError>(())
    /// ```
    pub fn degree_list(&self, nodes: &[usize], out: &mut [usize]) -> Result<usize, ListError> {
        self.list(bitm_tree_degree_list, nodes, out)
    }

    /// Child `ks[i]` of each node `nodes[i]` of a list; returns how many do not exist, written as `NO_ANSWER`.
    ///
    /// ```
    /// use bitm_proved::{ListError, Tree, NO_ANSWER};
    /// let (tree, mut out) = (Tree::build(&[2, 0, 1, 0])?, [9; 3]);
    /// assert_eq!(tree.view().child_list(&[0, 0, 2], &[1, 2, 0], &mut out), Ok(1));
    /// assert_eq!(out, [2, NO_ANSWER, 3]);
    /// assert_eq!(tree.view().child_list(&[0, 0, 2], &[1], &mut out), Err(ListError::Pairs { first: 3, second: 1 }));
    /// # Ok::<(), bitm_proved::BuildError>(())
    /// ```
    pub fn child_list(&self, nodes: &[usize], ks: &[usize], out: &mut [usize]) -> Result<usize, ListError> {
        let (from, of, len) = (as_u64(nodes).as_ptr(), as_u64(ks).as_ptr(), pairs(nodes.len(), ks.len())?);
        query_list(len, as_u64_mut(out), |to, room, counts| {
            // SAFETY: a view, two shared slices and a mutable one, which overlaps neither, and room for the counts.
            unsafe { bitm_tree_child_list(self.block.parts(), from, len, of, len, to, room, counts) }
        })
    }
}

impl TreeView<'_> {
    pub(crate) fn show(&self, f: &mut fmt::Formatter<'_>, name: &str) -> fmt::Result {
        f.debug_struct(name).field("nodes", &self.len()).finish()
    }
}

/// The block of the tree whose nodes have these degrees.
pub(crate) fn build(degrees: &[u64]) -> Result<Vec<u64>, BuildError> {
    let too_long = BuildError::TooLong { len: degrees.len() };
    let mut words = 0;
    // SAFETY: a number is passed, and room for one.
    if unsafe { bitm_tree_size(degrees.len(), &mut words) } != OK {
        return Err(too_long);
    }
    let mut block = zeroed(words as usize)?;
    // SAFETY: a shared and a mutable slice, which do not overlap.
    match unsafe { bitm_tree_build(degrees.as_ptr(), degrees.len(), block.as_mut_ptr(), block.len()) } {
        OK => Ok(block),
        WRONG => Err(BuildError::NotATree { node: misfit(degrees) }),
        _ => Err(too_long),
    }
}
