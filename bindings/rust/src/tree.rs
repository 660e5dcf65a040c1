//! The nodes of a tree: queries that panic where its block is wrong.
use crate::answers::{answers, by_view};
use crate::errors::ListError;
use crate::sys::tree::owned::Tree;
use crate::sys::tree::TreeView;
use core::ops::Range;

answers! { TreeView, Tree;
    /// The parent of a node; `None` exactly at the root and where there is no such node. One proved call.
    ///
    /// ```
    /// let tree = bitm_proved::Tree::build(&[2, 0, 1, 0])?;
    /// assert_eq!((tree.parent(3), tree.parent(1), tree.parent(0)), (Some(2), Some(0), None));
    /// # Ok::<(), bitm_proved::BuildError>(())
    /// ```
    pub fn parent(&self, node: usize) -> Option<usize> = checked_parent;

    /// Child `k` of a node, counted from 0; `None` exactly where it has no more than `k` children, or there is
    /// no such node. One proved call.
    ///
    /// ```
    /// let tree = bitm_proved::Tree::build(&[2, 0, 1, 0])?;
    /// assert_eq!((tree.child(0, 0), tree.child(0, 1), tree.child(0, 2)), (Some(1), Some(2), None));
    /// # Ok::<(), bitm_proved::BuildError>(())
    /// ```
    pub fn child(&self, node: usize, k: usize) -> Option<usize> = checked_child;

    /// How many children a node has; `None` exactly where there is no such node. One proved call.
    ///
    /// ```
    /// let tree = bitm_proved::Tree::build(&[2, 0, 1, 0])?;
    /// assert_eq!((tree.degree(0), tree.degree(1), tree.degree(4)), (Some(2), Some(0), None));
    /// # Ok::<(), bitm_proved::BuildError>(())
    /// ```
    pub fn degree(&self, node: usize) -> Option<usize> = checked_degree;

    /// The children of a node, which follow one another; none where there is no such node. Two proved calls.
    ///
    /// ```
    /// let tree = bitm_proved::Tree::build(&[2, 0, 1, 0])?;
    /// assert!(tree.children(0).eq([1, 2]) && tree.children(1).is_empty() && tree.children(4).is_empty());
    /// # Ok::<(), bitm_proved::BuildError>(())
    /// ```
    pub fn children(&self, node: usize) -> Range<usize> = checked_children;

    /// Whether a node has no children; `None` exactly where there is no such node. One proved call.
    ///
    /// ```
    /// let tree = bitm_proved::Tree::build(&[2, 0, 1, 0])?;
    /// assert_eq!((tree.is_leaf(0), tree.is_leaf(3), tree.is_leaf(4)), (Some(false), Some(true), None));
    /// # Ok::<(), bitm_proved::BuildError>(())
    /// ```
    pub fn is_leaf(&self, node: usize) -> Option<bool> = checked_is_leaf;

    /// The child of a node's parent after it; `None` exactly at the last child, at the root and where there is
    /// no such node. One proved call.
    ///
    /// ```
    /// let tree = bitm_proved::Tree::build(&[2, 0, 1, 0])?;
    /// assert_eq!((tree.next_sibling(1), tree.next_sibling(2), tree.next_sibling(0)), (Some(2), None, None));
    /// # Ok::<(), bitm_proved::BuildError>(())
    /// ```
    pub fn next_sibling(&self, node: usize) -> Option<usize> = checked_next_sibling;

    /// The child of a node's parent before it; `None` exactly at the first child, at the root and where there
    /// is no such node. One proved call.
    ///
    /// ```
    /// let tree = bitm_proved::Tree::build(&[2, 0, 1, 0])?;
    /// assert_eq!((tree.previous_sibling(2), tree.previous_sibling(1)), (Some(1), None));
    /// # Ok::<(), bitm_proved::BuildError>(())
    /// ```
    pub fn previous_sibling(&self, node: usize) -> Option<usize> = checked_previous_sibling;

    /// Which child of its parent a node is, counted from 0; `None` exactly at the root and where there is no
    /// such node. One proved call.
    ///
    /// ```
    /// let tree = bitm_proved::Tree::build(&[2, 0, 1, 0])?;
    /// assert_eq!((tree.child_rank(2), tree.child_rank(3), tree.child_rank(0)), (Some(1), Some(0), None));
    /// # Ok::<(), bitm_proved::BuildError>(())
    /// ```
    pub fn child_rank(&self, node: usize) -> Option<usize> = checked_child_rank;
}

by_view! { Tree;
    /// How many nodes there are.
    ///
    /// ```
    /// assert_eq!(bitm_proved::Tree::build(&[2, 0, 1, 0])?.len(), 4);
    /// # Ok::<(), bitm_proved::BuildError>(())
    /// ```
    pub fn len(&self) -> usize;

    /// Whether there are none, which is so of no tree that was built, and of no block that passes `check`.
    ///
    /// ```
    /// assert!(!bitm_proved::Tree::build(&[0])?.is_empty());
    /// # Ok::<(), bitm_proved::BuildError>(())
    /// ```
    pub fn is_empty(&self) -> bool;

    /// The words of the block, which is also the file of this tree.
    ///
    /// ```
    /// use bitm_proved::Tree;
    /// let made = Tree::build(&[1, 0])?;
    /// assert_eq!(Tree::from_words(made.block())?.block(), made.block());
    /// # Ok::<(), Box<dyn std::error::Error>>(())
    /// ```
    pub fn block(&self) -> &[u64];

    /// Whether the block is as it was written and holds a tree: looks at all of it, three times.
    ///
    /// ```
    /// assert!(bitm_proved::Tree::build(&[2, 0, 1, 0])?.check());
    /// # Ok::<(), bitm_proved::BuildError>(())
    /// ```
    pub fn check(&self) -> bool;

    /// The parents of a list of nodes; returns how many have none, written as `NO_ANSWER`.
    ///
    /// ```
    /// use bitm_proved::{Tree, NO_ANSWER};
    /// let (tree, mut out) = (Tree::build(&[2, 0, 1, 0])?, [9; 3]);
    /// assert_eq!((tree.parent_list(&[0, 1, 3], &mut out), out), (Ok(1), [NO_ANSWER, 0, 2]));
    /// # Ok::<(), bitm_proved::BuildError>(())
    /// ```
    pub fn parent_list(&self, nodes: &[usize], out: &mut [usize]) -> Result<usize, ListError>;

    /// How many children each node of a list has; returns for how many there is none, written as `NO_ANSWER`.
    ///
    /// ```
    /// use bitm_proved::{Tree, NO_ANSWER};
    /// let (tree, mut out) = (Tree::build(&[2, 0, 1, 0])?, [9; 3]);
    /// assert_eq!((tree.degree_list(&[0, 1, 4], &mut out), out), (Ok(1), [2, 0, NO_ANSWER]));
    /// # Ok::<(), bitm_proved::BuildError>(())
    /// ```
    pub fn degree_list(&self, nodes: &[usize], out: &mut [usize]) -> Result<usize, ListError>;

    /// Child `ks[i]` of each node `nodes[i]` of a list; returns how many do not exist, written as `NO_ANSWER`.
    ///
    /// ```
    /// use bitm_proved::{Tree, NO_ANSWER};
    /// let (tree, mut out) = (Tree::build(&[2, 0, 1, 0])?, [9; 3]);
    /// assert_eq!((tree.child_list(&[0, 0, 2], &[1, 2, 0], &mut out), out), (Ok(1), [2, NO_ANSWER, 3]));
    /// # Ok::<(), bitm_proved::BuildError>(())
    /// ```
    pub fn child_list(&self, nodes: &[usize], ks: &[usize], out: &mut [usize]) -> Result<usize, ListError>;
}
