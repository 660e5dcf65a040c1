//! Why something is not made, taken or answered.
mod build;
mod faults;

use crate::sys::kinds::Kind;
pub use build::BuildError;
use core::{error::Error, fmt};
pub use faults::{EqualPair, TrieFault};

/// Memory was refused.
///
/// ```
/// use bitm_proved::{BuildError, NoMemory};
/// let why = NoMemory { bytes: 16 };
/// assert_eq!(why.to_string(), "memory for 16 bytes was refused");
/// assert_eq!(BuildError::from(why), BuildError::NoMemory(why));
/// ```
#[derive(Clone, Copy, PartialEq, Eq, Debug)]
pub struct NoMemory {
    /// The number of bytes that were requested.
    ///
    /// ```
    /// use bitm_proved::BitVec;
    /// let refused = Box::<[u64]>::try_with_zeroed_bits(1 << 62).unwrap_err();
    /// assert_eq!(refused.bytes, 1 << 59); // 2^62 bits
    /// ```
    pub bytes: usize,
}

impl fmt::Display for NoMemory {
    fn fmt(&self, f: &mut fmt::Formatter<'_>) -> fmt::Result {
        write!(f, "memory for {} bytes was refused", self.bytes)
    }
}

impl Error for NoMemory {}

/// The tables do not match the words, or the parts form no sequence, hash, tree or trie.
///
/// ```
/// use bitm_proved::{IndexView, Queries, WrongTables};
/// let (words, wrong) = ([0u64], [u64::MAX]);
/// let bits = IndexView::new(&words, 64, &words, &wrong)?;
/// assert_eq!(bits.checked_rank(64), Err(WrongTables));
/// # Ok::<(), WrongTables>(())
/// ```
#[derive(Clone, Copy, PartialEq, Eq, Debug)]
pub struct WrongTables;

impl fmt::Display for WrongTables {
    fn fmt(&self, f: &mut fmt::Formatter<'_>) -> fmt::Result {
        f.write_str("the tables do not match the words")
    }
}

impl Error for WrongTables {}

/// Why words or bytes are not taken as a file, or something is not stored.
///
/// ```
/// use bitm_proved::{EliasFano, IndexView, Kind, SequenceView, StoredError};
/// let file = EliasFano::build(&[2, 3, 5])?.to_stored()?;
/// let refused = IndexView::from_words(&file).err().unwrap();
/// assert_eq!(refused, StoredError::OtherKind { held: Kind::Sequence, wanted: Kind::Index });
/// assert_eq!(refused.to_string(), "the file holds a sequence, not an index");
/// assert_eq!(SequenceView::from_words(&file[..4]).err(), Some(StoredError::NotWhole));
/// # Ok::<(), Box<dyn std::error::Error>>(())
/// ```
#[derive(Clone, Copy, PartialEq, Eq, Debug)]
#[non_exhaustive]
pub enum StoredError {
    /// The bytes do not begin at a multiple of 8.
    ///
    /// ```
    /// use bitm_proved::{Index, StoredError};
    /// let bytes = [0u64; 9];
    /// let inside = &bitm_proved::bytes_of(&bytes)[4..]; // begins at a multiple of 8, and 4
    /// assert_eq!(Index::from_bytes(inside).err(), Some(StoredError::Misaligned));
    /// ```
    Misaligned,
    /// They have no header of this format, of a version and byte order that is read, or are fewer than it says.
    ///
    /// ```
    /// use bitm_proved::{Index, StoredError};
    /// assert_eq!(Index::from_words([0u64; 40]).err(), Some(StoredError::NotWhole)); // no header
    /// ```
    NotWhole,
    /// They are right but hold another structure than the one that is opened.
    ///
    /// ```
    /// use bitm_proved::{Index, Kind, StoredError, Tree};
    /// let refused = Index::from_words(Tree::build(&[1, 0])?.into_owner()).err();
    /// assert_eq!(refused, Some(StoredError::OtherKind { held: Kind::Tree, wanted: Kind::Index }));
    /// # Ok::<(), bitm_proved::BuildError>(())
    /// ```
    OtherKind {
        /// What they hold.
        held: Kind,
        /// What was opened.
        wanted: Kind,
    },
    /// A part is not as long as the words need.
    ///
    /// ```
    /// use bitm_proved::{Index, Queries, StoredError};
    /// assert_eq!(Index::build([7u64]).to_stored(65).err(), Some(StoredError::WrongLength)); // 65 bits of 64
    /// ```
    WrongLength,
    /// The tables do not match the words, or the parts form no sequence: they are not stored.
    ///
    /// ```
    /// use bitm_proved::{IndexView, StoredError};
    /// let view = IndexView::new(&[7], 64, &[0], &[u64::MAX])?; // no words have such tables
    /// assert_eq!(view.to_words(), Err(StoredError::WrongTables));
    /// # Ok::<(), bitm_proved::WrongTables>(())
    /// ```
    WrongTables,
    /// A block has 16 sections already, or a length does not fit: of the items of a section, or of the block with it.
    ///
    /// ```
    /// use bitm_proved::{sections, StoredError, Tree};
    /// let tree = Tree::build(&[2, 0, 1, 0])?;
    /// let refused = sections::extended(tree.block(), 65536, 9, &[7]); // nine bytes take two words
    /// assert_eq!(refused, Err(StoredError::NoSection));
    /// # Ok::<(), bitm_proved::BuildError>(())
    /// ```
    NoSection,
    /// Memory was refused.
    ///
    /// ```
    /// use bitm_proved::{BitVec, StoredError};
    /// let read = || Ok(Box::<[u64]>::try_with_zeroed_bits(1 << 62)?);
    /// assert!(matches!(read(), Err(StoredError::NoMemory(_))));
    /// ```
    NoMemory(NoMemory),
}

impl fmt::Display for StoredError {
    fn fmt(&self, f: &mut fmt::Formatter<'_>) -> fmt::Result {
        f.write_str(match self {
            StoredError::Misaligned => "the bytes do not begin at a multiple of 8",
            StoredError::NotWhole => "this is not a file of this format, or not a whole one",
            StoredError::WrongTables => return WrongTables.fmt(f),
            StoredError::OtherKind { held, wanted } => return write!(f, "the file holds {held}, not {wanted}"),
            StoredError::WrongLength => "the length of a table, or of the bits, does not fit the words",
            StoredError::NoSection => "the block has 16 sections, or a length does not fit the items of a section",
            StoredError::NoMemory(why) => return why.fmt(f),
        })
    }
}

impl Error for StoredError {}

impl From<NoMemory> for StoredError {
    fn from(why: NoMemory) -> Self {
        StoredError::NoMemory(why)
    }
}

/// Why a list of queries has no answers, or not all.
///
/// ```
/// use bitm_proved::{ArrayWithRank101111, ListError, Queries};
/// let bits: ArrayWithRank101111 = vec![0b1011].into_boxed_slice().into();
/// let why = bits.rank_list(&[1, 2], &mut [0; 3]).unwrap_err();
/// assert_eq!(why, ListError::Lengths { queries: 2, room: 3 });
/// assert_eq!(why.to_string(), "there is room for 3 answers to 2 queries");
/// ```
#[derive(Clone, Copy, PartialEq, Eq, Debug)]
#[non_exhaustive]
pub enum ListError {
    /// There is not room for one answer to each query; nothing was written.
    ///
    /// ```
    /// use bitm_proved::{Index, ListError, Queries};
    /// assert_eq!(Index::build([7u64]).rank_list(&[1, 2], &mut [0]), Err(ListError::Lengths { queries: 2, room: 1 }));
    /// ```
    Lengths {
        /// How many queries there are.
        queries: usize,
        /// How many answers there is room for.
        room: usize,
    },
    /// The two lists of pairs are not as long as each other; nothing was written.
    ///
    /// ```
    /// use bitm_proved::{ListError, Tree};
    /// let refused = Tree::build(&[1, 0])?.child_list(&[0, 1], &[0], &mut [0; 2]);
    /// assert_eq!(refused, Err(ListError::Pairs { first: 2, second: 1 }));
    /// # Ok::<(), bitm_proved::BuildError>(())
    /// ```
    Pairs {
        /// How many numbers the first list has.
        first: usize,
        /// How many the second has.
        second: usize,
    },
    /// The tables do not match the words; `WRONG_TABLES` stands for the answers that it shows in. A list of the
    /// numbers at indices stops at the first of these.
    ///
    /// ```
    /// use bitm_proved::{IndexView, ListError, Queries};
    /// let view = IndexView::new(&[7], 64, &[u64::MAX], &[u64::MAX])?; // no words have such tables
    /// assert_eq!(view.rank_list(&[64], &mut [0]), Err(ListError::WrongTables { wrong: 1 }));
    /// # Ok::<(), bitm_proved::WrongTables>(())
    /// ```
    WrongTables {
        /// How many.
        wrong: usize,
    },
}

impl fmt::Display for ListError {
    fn fmt(&self, f: &mut fmt::Formatter<'_>) -> fmt::Result {
        match self {
            ListError::Lengths { queries, room } => write!(f, "there is room for {room} answers to {queries} queries"),
            ListError::Pairs { first, second } => write!(f, "the lists of pairs have {first} and {second} numbers"),
            ListError::WrongTables { wrong } => write!(f, "{WrongTables}: {wrong} answers show it"),
        }
    }
}

impl Error for ListError {}

/// Why a file was not opened.
///
/// ```
/// use bitm_proved::{OpenError, StoredError};
/// let why: OpenError = StoredError::NotWhole.into();
/// assert_eq!(why.to_string(), "this is not a file of this format, or not a whole one");
/// ```
#[cfg(feature = "std")]
#[derive(Debug)]
#[non_exhaustive]
pub enum OpenError {
    /// The system says why.
    ///
    /// ```
    /// use bitm_proved::OpenError;
    /// let none = std::fs::read("/there/is/no/such/file").map_err(OpenError::from);
    /// assert!(matches!(none, Err(OpenError::System(_))));
    /// ```
    System(std::io::Error),
    /// The file is not of this format, or of another kind.
    ///
    /// ```
    /// use bitm_proved::{OpenError, StoredError};
    /// assert!(matches!(StoredError::NotWhole.into(), OpenError::Stored(StoredError::NotWhole)));
    /// ```
    Stored(StoredError),
}

#[cfg(feature = "std")]
impl fmt::Display for OpenError {
    fn fmt(&self, f: &mut fmt::Formatter<'_>) -> fmt::Result {
        match self {
            OpenError::System(why) => why.fmt(f),
            OpenError::Stored(why) => why.fmt(f),
        }
    }
}

#[cfg(feature = "std")]
impl Error for OpenError {
    fn source(&self) -> Option<&(dyn Error + 'static)> {
        match self {
            OpenError::System(why) => Some(why),
            OpenError::Stored(why) => Some(why),
        }
    }
}

#[cfg(feature = "std")]
impl From<std::io::Error> for OpenError {
    fn from(why: std::io::Error) -> Self {
        OpenError::System(why)
    }
}

#[cfg(feature = "std")]
impl From<StoredError> for OpenError {
    fn from(why: StoredError) -> Self {
        OpenError::Stored(why)
    }
}

#[cfg(feature = "std")]
impl From<NoMemory> for OpenError {
    fn from(why: NoMemory) -> Self {
        OpenError::Stored(why.into())
    }
}

/// The panic where tables turn out to be others.
#[cold]
#[track_caller]
pub(crate) fn wrong_tables() -> ! {
    panic!("{WrongTables}")
}

/// The answer, or a panic where tables turned out to be others.
#[inline(always)]
#[track_caller]
pub(crate) fn sure<T>(answer: Result<T, WrongTables>) -> T {
    match answer {
        Ok(it) => it,
        Err(WrongTables) => wrong_tables(),
    }
}

/// What was made, or a panic that says why not.
#[track_caller]
pub(crate) fn made<T, E: fmt::Display>(result: Result<T, E>) -> T {
    match result {
        Ok(it) => it,
        Err(why) => panic!("{why}"),
    }
}
