//! Why something is not built.
use super::{EqualPair, NoMemory, TrieFault, WrongTables};
use core::{error::Error, fmt};

/// Why an index, a sequence, sparse bits, a hash, a tree, a trie, a list of numbers, the index of a text, prefix counts
/// or an index over shards was not built.
///
/// ```
/// use bitm_proved::{BuildError, EliasFano};
/// let why = EliasFano::build(&[2, 5, 3]).unwrap_err();
/// assert_eq!(why, BuildError::NotSorted { index: 2, number: 3, before: 5 });
/// assert_eq!(why.to_string(), "number 2 (3) is less than number 1 (5)");
/// ```
#[derive(Clone, Copy, PartialEq, Eq, Debug)]
#[non_exhaustive]
pub enum BuildError {
    /// There are more words, bits or numbers than there may be.
    ///
    /// ```
    /// use bitm_proved::{BuildError, Index, Sampling};
    /// let longer = Index::try_build([0u64], 65, Sampling::default()); // 65 bits of 64
    /// assert_eq!(longer.err(), Some(BuildError::TooLong { len: 65 }));
    /// ```
    TooLong {
        /// How many there are.
        len: usize,
    },
    /// The number at an index is less than the one before it.
    ///
    /// ```
    /// use bitm_proved::{BuildError, EliasFano};
    /// let why = EliasFano::build(&[2, 5, 3]).err();
    /// assert_eq!(why, Some(BuildError::NotSorted { index: 2, number: 3, before: 5 }));
    /// ```
    NotSorted {
        /// The least such index.
        index: usize,
        /// The number there.
        number: u64,
        /// The number before it.
        before: u64,
    },
    /// The position at an index is not greater than the one before it.
    ///
    /// ```
    /// use bitm_proved::{BuildError, SparseBits};
    /// let why = SparseBits::build(&[2, 5, 5], 9).err();
    /// assert_eq!(why, Some(BuildError::NotRising { index: 2, position: 5, before: 5 }));
    /// ```
    NotRising {
        /// The least such index.
        index: usize,
        /// The position there.
        position: u64,
        /// The position before it.
        before: u64,
    },
    /// The position at an index is not less than the number of bits.
    ///
    /// ```
    /// use bitm_proved::{BuildError, SparseBits};
    /// let why = SparseBits::build(&[2, 5], 5).err();
    /// assert_eq!(why, Some(BuildError::PastEnd { index: 1, position: 5, len: 5 }));
    /// ```
    PastEnd {
        /// The least such index.
        index: usize,
        /// The position there.
        position: u64,
        /// The number of bits.
        len: usize,
    },
    /// Hashes of keys are equal.
    ///
    /// ```
    /// use bitm_proved::{BuildError, Dictionary, EqualPair};
    /// let pair = EqualPair::Keys { first: 0, second: 2 };
    /// assert_eq!(Dictionary::build(&[5, 7, 5]).err(), Some(BuildError::EqualHashes { left: 2, pair }));
    /// ```
    EqualHashes {
        /// How many hashes got no number.
        left: usize,
        /// Two of the keys.
        pair: EqualPair,
    },
    /// The degrees form no tree.
    ///
    /// ```
    /// use bitm_proved::{BuildError, Tree};
    /// let why = Tree::build(&[1, 1]).err(); // two children of two nodes
    /// assert_eq!(why, Some(BuildError::NotATree { node: Some(1) }));
    /// ```
    NotATree {
        /// The first node that is a child of no node before it, or has more children than there are nodes left; `None`
        /// where there are no degrees.
        node: Option<usize>,
    },
    /// The degrees form no tree, or the labels, their width or the ends do not fit the tree.
    ///
    /// ```
    /// use bitm_proved::{BuildError, Trie, TrieFault};
    /// let fault = TrieFault::WideLabel { index: 0, label: 8, width: 3 }; // 8 has four bits
    /// assert_eq!(Trie::build(&[1, 0], &[8], 3, &[]).err(), Some(BuildError::NotATrie(fault)));
    /// ```
    NotATrie(TrieFault),
    /// The word at an index does not stand after the one before it, in the order of their bytes.
    ///
    /// ```
    /// use bitm_proved::{BuildError, Trie};
    /// assert_eq!(Trie::of_words(&["b", "be", "a"]).err(), Some(BuildError::UnsortedWord { index: 2 }));
    /// ```
    UnsortedWord {
        /// The least such index.
        index: usize,
    },
    /// The number at an index has more bits than the width.
    ///
    /// ```
    /// use bitm_proved::{BuildError, WaveletMatrix};
    /// let why = WaveletMatrix::build_with(&[3, 4], 2).err();
    /// assert_eq!(why, Some(BuildError::TooWide { index: 1, number: 4, width: 2 }));
    /// ```
    TooWide {
        /// The least such index.
        index: usize,
        /// The number there.
        number: u64,
        /// The width.
        width: u32,
    },
    /// The width is not 1 to 64.
    ///
    /// ```
    /// use bitm_proved::{BuildError, WaveletMatrix};
    /// assert_eq!(WaveletMatrix::build_with(&[0], 0).err(), Some(BuildError::WrongWidth { width: 0 }));
    /// ```
    WrongWidth {
        /// It.
        width: u32,
    },
    /// A fingerprint has more than 32 bits.
    ///
    /// ```
    /// use bitm_proved::{BuildError, KeyHash, KeyOptions};
    /// let wider = KeyOptions { bits: 33, ..KeyOptions::default() };
    /// assert_eq!(KeyHash::build_with(&["ada"], wider).err(), Some(BuildError::WrongBits { bits: 33 }));
    /// ```
    WrongBits {
        /// How many.
        bits: u32,
    },
    /// The letter at an index is outside the alphabet.
    ///
    /// ```
    /// use bitm_proved::{BuildError, TextIndex};
    /// let why = TextIndex::build_of_letters(&[1, 3], 3, 32).err();
    /// assert_eq!(why, Some(BuildError::LetterOutside { index: 1, letter: 3, letters: 3 }));
    /// ```
    LetterOutside {
        /// The least such index.
        index: usize,
        /// The letter there.
        letter: u64,
        /// The size of the alphabet.
        letters: u32,
    },
    /// The step between samples is 0.
    ///
    /// ```
    /// use bitm_proved::{BuildError, TextIndex};
    /// assert_eq!(TextIndex::build(b"banana", 0).err(), Some(BuildError::WrongStep));
    /// ```
    WrongStep,
    /// The two lists are not as long as each other.
    ///
    /// ```
    /// use bitm_proved::{BuildError, PrefixCounts};
    /// assert_eq!(PrefixCounts::new(&[10, 7], &[4]), Err(BuildError::Pairs { first: 2, second: 1 }));
    /// ```
    Pairs {
        /// How many numbers the first list has.
        first: usize,
        /// How many the second has.
        second: usize,
    },
    /// A shard is said to have more 1 bits than bits.
    ///
    /// ```
    /// use bitm_proved::{BuildError, PrefixCounts};
    /// assert_eq!(PrefixCounts::new(&[10, 7], &[4, 8]), Err(BuildError::MoreOnes { shard: 1 }));
    /// ```
    MoreOnes {
        /// The first such shard.
        shard: usize,
    },
    /// The shards have 2^64 bits or more together.
    ///
    /// ```
    /// use bitm_proved::{BuildError, PrefixCounts};
    /// assert_eq!(PrefixCounts::new(&[u64::MAX, 1], &[0, 0]), Err(BuildError::TooManyBits));
    /// ```
    TooManyBits,
    /// The tables of a shard do not match its words.
    ///
    /// ```
    /// use bitm_proved::{BuildError, IndexView, ShardedIndex};
    /// let shard = IndexView::new(&[7], 64, &[u64::MAX], &[u64::MAX])?; // no words have such tables
    /// assert_eq!(ShardedIndex::new(&[shard]).err(), Some(BuildError::WrongTables));
    /// # Ok::<(), bitm_proved::WrongTables>(())
    /// ```
    WrongTables,
    /// Memory was refused.
    ///
    /// ```
    /// use bitm_proved::{BitVec, BuildError};
    /// let build = || Ok(Box::<[u64]>::try_with_zeroed_bits(1 << 62)?);
    /// assert!(matches!(build(), Err(BuildError::NoMemory(_))));
    /// ```
    NoMemory(NoMemory),
}

/// A list that does not ascend at an index: the name of its items, the items there and before it, and their relation.
pub(super) fn falls(
    f: &mut fmt::Formatter<'_>,
    what: &str,
    index: usize,
    [item, before]: [u64; 2],
    how: &str,
) -> fmt::Result {
    write!(f, "{what} {index} ({item}) is {how} {what} {} ({before})", index.saturating_sub(1))
}

/// Why degrees form no tree.
pub(super) fn no_tree(f: &mut fmt::Formatter<'_>, node: Option<usize>) -> fmt::Result {
    match node {
        Some(node) => {
            write!(f, "node {node} is a child of no node before it, or has more children than there are nodes left")
        }
        None => f.write_str("there are no degrees: a tree has a root"),
    }
}

impl fmt::Display for BuildError {
    fn fmt(&self, f: &mut fmt::Formatter<'_>) -> fmt::Result {
        use BuildError as E;
        match self {
            E::TooLong { len } => write!(f, "a length is too great: {len}"),
            E::NotSorted { index, number, before } => falls(f, "number", *index, [*number, *before], "less than"),
            E::NotRising { index, position, before } => falls(f, "position", *index, [*position, *before], "not above"),
            E::PastEnd { index, position, len } => write!(f, "position {index} ({position}) is not below {len}"),
            E::EqualHashes { pair, .. } => pair.fmt(f),
            E::NotATree { node } => no_tree(f, *node),
            E::NotATrie(fault) => fault.fmt(f),
            E::UnsortedWord { index } => {
                write!(f, "word {index} does not stand after word {}", index.saturating_sub(1))
            }
            E::TooWide { index, number, width } => write!(f, "number {index} ({number}) has more than {width} bits"),
            E::WrongWidth { width } => write!(f, "a width is 1 to 64 bits, not {width}"),
            E::WrongBits { bits } => write!(f, "a fingerprint has 0 to 32 bits, not {bits}"),
            E::LetterOutside { index, letter, letters } => {
                write!(f, "letter {index} ({letter}) is not below {letters}")
            }
            E::WrongStep => f.write_str("the step between samples is 0"),
            E::Pairs { first, second } => write!(f, "the lists of pairs have {first} and {second} numbers"),
            E::MoreOnes { shard } => write!(f, "shard {shard} has more 1 bits than bits"),
            E::TooManyBits => f.write_str("the shards have 2^64 bits or more"),
            E::WrongTables => WrongTables.fmt(f),
            E::NoMemory(why) => why.fmt(f),
        }
    }
}

impl Error for BuildError {}

impl From<NoMemory> for BuildError {
    fn from(why: NoMemory) -> Self {
        BuildError::NoMemory(why)
    }
}

impl From<WrongTables> for BuildError {
    fn from(_: WrongTables) -> Self {
        BuildError::WrongTables
    }
}
