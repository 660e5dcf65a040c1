//! A tree and the owner of its block.
use crate::errors::{made, BuildError, StoredError};
use crate::sys::held::Held;
use crate::sys::memory::copied;
use crate::sys::owner::owners_of_blocks;
use crate::sys::tree::{build, TreeView};
use alloc::vec::Vec;
use core::fmt;

/// A tree (LOUDS) and the owner of its block, in about 2.6 bits a node.
///
/// Nodes are numbered level by level: the root is node 0, and the children of a node follow one another, after the
/// children of the node before it. The block is the file of the tree, the same in each language.
///
/// ```
/// use bitm_proved::Tree;
/// let tree = Tree::build(&[2, 0, 1, 0])?; // how many children each node has: 0 has 1 and 2, and 2 has 3
/// assert_eq!((tree.parent(3), tree.child(0, 1), tree.degree(0), tree.children(0)), (Some(2), Some(2), Some(2), 1..3));
/// assert_eq!((tree.next_sibling(1), tree.child_rank(2), tree.is_leaf(3)), (Some(2), Some(1), Some(true)));
/// # Ok::<(), bitm_proved::BuildError>(())
/// ```
pub struct Tree<O = Vec<u64>> {
    view: TreeView<'static>,
    held: Held<O>,
}

impl Tree {
    /// The tree whose nodes have these degrees: how many children each has.
    ///
    /// # Errors
    /// `NotATree` exactly where they are the degrees of no tree: in a tree of n nodes there is one child for each node
    /// but the root, and the first i nodes have at least i children, for each i from 1 to n - 1. `NoMemory` where
    /// memory is refused.
    ///
    /// ```
    /// use bitm_proved::{BuildError, Tree};
    /// assert_eq!(Tree::build(&[2, 0, 1, 0])?.parent(3), Some(2));
    /// let why = Tree::build(&[0, 1]).err(); // node 1 would be its own parent
    /// assert_eq!(why, Some(BuildError::NotATree { node: Some(1) }));
    /// # Ok::<(), BuildError>(())
    /// ```
    pub fn build(degrees: &[u64]) -> Result<Self, BuildError> {
        Self::of_block(build(degrees)?, BuildError::TooLong { len: degrees.len() })
    }
}

owners_of_blocks! { Tree with TreeView;
    "tree", "bitm_proved::Tree::build(&[2, 0, 1, 0])?", "4"
}
