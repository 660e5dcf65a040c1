//! What is wrong with the items that something is not built of.
use super::build::{falls, no_tree};
use core::fmt;

/// Two items of a list whose hashes are equal, counted from 0.
///
/// ```
/// use bitm_proved::{BuildError, EqualPair, Strings};
/// let why = Strings::build(&["ada", "bob", "ada"]).unwrap_err();
/// assert!(matches!(why, BuildError::EqualHashes { pair: EqualPair::Strings { first: 0, second: 2 }, .. }));
/// assert_eq!(why.to_string(), "strings 0 and 2 are equal");
/// ```
#[derive(Clone, Copy, PartialEq, Eq, Debug)]
#[non_exhaustive]
pub enum EqualPair {
    /// A hash that was passed more than once. To build moves the hashes, so where they stood is not known.
    ///
    /// ```
    /// use bitm_proved::{BuildError, EqualPair, PerfectHash};
    /// let (why, pair) = (PerfectHash::build(vec![5, 7, 5]).unwrap_err(), EqualPair::Hashes { hash: 5 });
    /// assert_eq!(why, BuildError::EqualHashes { left: 2, pair });
    /// assert_eq!(why.to_string(), "the hash 5 is there more than once");
    /// ```
    Hashes {
        /// The hash.
        hash: u64,
    },
    /// Two keys that are equal.
    ///
    /// ```
    /// use bitm_proved::KeyHash;
    /// let why = KeyHash::build(&["ada", "bob", "ada"]).unwrap_err();
    /// assert_eq!(why.to_string(), "keys 0 and 2 are equal"); // the pair is EqualPair::Keys
    /// ```
    Keys {
        /// The first of them.
        first: usize,
        /// The second.
        second: usize,
    },
    /// Two strings that are equal.
    ///
    /// ```
    /// use bitm_proved::{BuildError, EqualPair, Strings};
    /// let pair = EqualPair::Strings { first: 1, second: 2 };
    /// assert_eq!(Strings::build(&["ada", "", ""]).err(), Some(BuildError::EqualHashes { left: 2, pair }));
    /// ```
    Strings {
        /// The first of them.
        first: usize,
        /// The second.
        second: usize,
    },
    /// Two keys, or strings, that differ and have one hash: another seed gives them two.
    ///
    /// ```
    /// use bitm_proved::EqualPair;
    /// let pair = EqualPair::OneHash { first: 0, second: 2 };
    /// assert_eq!(pair.to_string(), "keys 0 and 2 have one hash: take another seed");
    /// ```
    OneHash {
        /// The first of them.
        first: usize,
        /// The second.
        second: usize,
    },
}

impl fmt::Display for EqualPair {
    fn fmt(&self, f: &mut fmt::Formatter<'_>) -> fmt::Result {
        match self {
            EqualPair::Hashes { hash } => write!(f, "the hash {hash} is there more than once"),
            EqualPair::Keys { first, second } => write!(f, "keys {first} and {second} are equal"),
            EqualPair::Strings { first, second } => write!(f, "strings {first} and {second} are equal"),
            EqualPair::OneHash { first, second } => {
                write!(f, "keys {first} and {second} have one hash: take another seed")
            }
        }
    }
}

/// Why degrees, labels, a width and ends form no trie. Items are counted from 0.
///
/// ```
/// use bitm_proved::Trie;
/// let why = Trie::build(&[2, 0, 1, 0], &[97, 98, 300], 8, &[]).unwrap_err();
/// assert_eq!(why.to_string(), "label 2 (300) has more than 8 bits"); // it is a TrieFault::WideLabel
/// ```
#[derive(Clone, Copy, PartialEq, Eq, Debug)]
#[non_exhaustive]
pub enum TrieFault {
    /// The width is not 1 to 63.
    ///
    /// ```
    /// use bitm_proved::{BuildError, Trie, TrieFault};
    /// let fault = TrieFault::Width { width: 64 };
    /// assert_eq!(Trie::build(&[1, 0], &[97], 64, &[]).err(), Some(BuildError::NotATrie(fault)));
    /// ```
    Width {
        /// The width.
        width: u32,
    },
    /// There is not one label for each node but the root.
    ///
    /// ```
    /// use bitm_proved::{BuildError, Trie, TrieFault};
    /// let fault = TrieFault::Labels { labels: 2, nodes: 2 };
    /// assert_eq!(Trie::build(&[1, 0], &[97, 98], 8, &[]).err(), Some(BuildError::NotATrie(fault)));
    /// ```
    Labels {
        /// How many labels there are.
        labels: usize,
        /// How many nodes.
        nodes: usize,
    },
    /// The ends have words, but more or fewer than a bit for each node takes.
    ///
    /// ```
    /// use bitm_proved::{BuildError, Trie, TrieFault};
    /// let fault = TrieFault::Ends { words: 2, nodes: 2 };
    /// assert_eq!(Trie::build(&[1, 0], &[97], 8, &[2, 0]).err(), Some(BuildError::NotATrie(fault)));
    /// ```
    Ends {
        /// How many words.
        words: usize,
        /// How many nodes there are.
        nodes: usize,
    },
    /// The degrees form no tree.
    ///
    /// ```
    /// use bitm_proved::{BuildError, Trie, TrieFault};
    /// let fault = TrieFault::NoTree { node: Some(1) }; // it is a child of no node before it
    /// assert_eq!(Trie::build(&[0, 1], &[97], 8, &[]).err(), Some(BuildError::NotATrie(fault)));
    /// ```
    NoTree {
        /// The node, as of [`NotATree`](crate::BuildError::NotATree).
        node: Option<usize>,
    },
    /// The label at an index has more bits than the width.
    ///
    /// ```
    /// use bitm_proved::{BuildError, Trie, TrieFault};
    /// let fault = TrieFault::WideLabel { index: 0, label: 300, width: 8 };
    /// assert_eq!(Trie::build(&[1, 0], &[300], 8, &[]).err(), Some(BuildError::NotATrie(fault)));
    /// ```
    WideLabel {
        /// The least such index.
        index: usize,
        /// The label there.
        label: u64,
        /// The width.
        width: u32,
    },
    /// The label at an index is not above the one before it, of a node with the same parent.
    ///
    /// ```
    /// use bitm_proved::{BuildError, Trie, TrieFault};
    /// let fault = TrieFault::NotRising { index: 1, label: 97, before: 98 }; // b before a
    /// assert_eq!(Trie::build(&[2, 0, 0], &[98, 97], 8, &[]).err(), Some(BuildError::NotATrie(fault)));
    /// ```
    NotRising {
        /// The least such index.
        index: usize,
        /// The label there.
        label: u64,
        /// The label before it.
        before: u64,
    },
}

impl fmt::Display for TrieFault {
    fn fmt(&self, f: &mut fmt::Formatter<'_>) -> fmt::Result {
        match self {
            TrieFault::Width { width } => write!(f, "a label has 1 to 63 bits, not {width}"),
            TrieFault::Labels { labels, nodes } => {
                write!(f, "there are {labels} labels and {nodes} nodes, each of which has one but the root")
            }
            TrieFault::Ends { words, nodes } => write!(f, "the ends of {nodes} nodes have {words} words"),
            TrieFault::NoTree { node } => no_tree(f, *node),
            TrieFault::WideLabel { index, label, width } => {
                write!(f, "label {index} ({label}) has more than {width} bits")
            }
            TrieFault::NotRising { index, label, before } => falls(f, "label", *index, [*label, *before], "not above"),
        }
    }
}
