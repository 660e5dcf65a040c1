//! Bits in shards: which shard holds a position or a rank, and shards of one process asked as one.
use crate::errors::{BuildError, WrongTables};
use crate::ffi::words::*;
use crate::sys::memory::{with_room, zeroed};
use crate::sys::view::IndexView;
use crate::sys::{query, NONE, OK};
use alloc::vec::Vec;
use core::fmt;
use core::marker::PhantomData;

mod lists;

/// A shard, and a position in it or the rank of a bit there.
///
/// ```
/// use bitm_proved::{Location, PrefixCounts};
/// let counts = PrefixCounts::new(&[10, 0, 7], &[4, 0, 2])?;
/// let location = counts.find(12).unwrap();
/// assert_eq!(location, Location { shard: 2, within: 2 });
/// assert_eq!(counts.bits_before()[location.shard] + location.within, 12);
/// # Ok::<(), bitm_proved::BuildError>(())
/// ```
#[derive(Clone, Copy, PartialEq, Eq, Debug)]
pub struct Location {
    /// The shard.
    ///
    /// ```
    /// let counts = bitm_proved::PrefixCounts::new(&[10, 7], &[4, 2])?;
    /// assert_eq!([9, 10].map(|position| counts.find(position).map(|it| it.shard)), [Some(0), Some(1)]);
    /// # Ok::<(), bitm_proved::BuildError>(())
    /// ```
    pub shard: usize,
    /// The position, or the rank, in the shard.
    ///
    /// ```
    /// let counts = bitm_proved::PrefixCounts::new(&[10, 7], &[4, 2])?;
    /// assert_eq!([9, 10].map(|position| counts.find(position).map(|it| it.within)), [Some(9), Some(0)]);
    /// # Ok::<(), bitm_proved::BuildError>(())
    /// ```
    pub within: u64,
}

/// How many bits, and how many 1 bits, there are before each shard: which shard holds a position, or the bit with a rank,
/// is answered by these alone, wherever the shards lie.
///
/// The position of a bit is `bits_before()[location.shard]` plus its position in the shard; the rank of a position is
/// `ones_before()[location.shard]` plus its rank in the shard.
///
/// ```
/// use bitm_proved::{Location, PrefixCounts};
/// let counts = PrefixCounts::new(&[1000, 0, 700], &[480, 0, 351])?;
/// assert_eq!(counts.find(1005), Some(Location { shard: 2, within: 5 }));
/// assert_eq!(counts.find_one(480), Some(Location { shard: 2, within: 0 }));
/// assert_eq!((counts.find_zero(519), counts.find_one(831)), (Some(Location { shard: 0, within: 519 }), None));
/// assert_eq!((counts.bits_before(), counts.ones_before()), (&[0, 1000, 1000, 1700][..], &[0, 480, 480, 831][..]));
/// # Ok::<(), bitm_proved::BuildError>(())
/// ```
#[derive(Clone, PartialEq, Eq, Debug)]
pub struct PrefixCounts {
    bits: Vec<u64>,
    ones: Vec<u64>,
}

/// The sums of the numbers before each; `TooManyBits` where the sum of all is 2^64 or more.
fn sums(numbers: &[u64]) -> Result<Vec<u64>, BuildError> {
    let mut out = zeroed(numbers.len() + 1)?;
    // SAFETY: a shared and a mutable slice.
    match unsafe { bitm_prefix_sums(numbers.as_ptr(), numbers.len(), out.as_mut_ptr(), out.len()) } {
        OK => Ok(out),
        _ => Err(BuildError::TooManyBits),
    }
}

impl PrefixCounts {
    /// Of how many bits, and how many 1 bits, each shard has.
    ///
    /// # Errors
    /// `Pairs` where the lists are not as long as each other, `MoreOnes` where a shard has more 1 bits than bits,
    /// `TooManyBits` where all shards have 2^64 bits or more, and `NoMemory` where memory is refused.
    ///
    /// ```
    /// use bitm_proved::{BuildError, PrefixCounts};
    /// assert_eq!(PrefixCounts::new(&[10, 0, 7], &[4, 0, 2])?.bits_before(), [0, 10, 10, 17]);
    /// let shorter = PrefixCounts::new(&[10, 0, 7], &[4, 0]);
    /// assert_eq!(shorter, Err(BuildError::Pairs { first: 3, second: 2 }));
    /// assert_eq!(PrefixCounts::new(&[10, 7], &[4, 8]), Err(BuildError::MoreOnes { shard: 1 }));
    /// assert_eq!(PrefixCounts::new(&[u64::MAX, 1], &[0, 0]), Err(BuildError::TooManyBits));
    /// # Ok::<(), BuildError>(())
    /// ```
    pub fn new(bits: &[u64], ones: &[u64]) -> Result<Self, BuildError> {
        if bits.len() != ones.len() {
            return Err(BuildError::Pairs { first: bits.len(), second: ones.len() });
        }
        match bits.iter().zip(ones).position(|(bits, ones)| ones > bits) {
            Some(shard) => Err(BuildError::MoreOnes { shard }),
            None => Ok(PrefixCounts { bits: sums(bits)?, ones: sums(ones)? }),
        }
    }

    /// How many bits there are before each shard, and last in all.
    ///
    /// ```
    /// use bitm_proved::PrefixCounts;
    /// let counts = PrefixCounts::new(&[10, 0, 7], &[4, 0, 2])?;
    /// assert_eq!(counts.bits_before(), [0, 10, 10, 17]);
    /// # Ok::<(), bitm_proved::BuildError>(())
    /// ```
    pub fn bits_before(&self) -> &[u64] {
        &self.bits
    }

    /// How many 1 bits there are before each shard, and last in all.
    ///
    /// ```
    /// use bitm_proved::PrefixCounts;
    /// let counts = PrefixCounts::new(&[10, 0, 7], &[4, 0, 2])?;
    /// assert_eq!(counts.ones_before(), [0, 4, 4, 6]);
    /// # Ok::<(), bitm_proved::BuildError>(())
    /// ```
    pub fn ones_before(&self) -> &[u64] {
        &self.ones
    }

    fn raw(&self) -> bitm_prefixes {
        bitm_prefixes {
            bits: self.bits.as_ptr(),
            bits_len: self.bits.len(),
            ones: self.ones.as_ptr(),
            ones_len: self.ones.len(),
        }
    }

    fn location(&self, kind: u32, number: u64) -> Option<Location> {
        let mut out = bitm_shard_location { shard: 0, within: 0 };
        // SAFETY: the counts borrow two vectors, and there is room for one location.
        match unsafe { bitm_shards_find(&self.raw(), kind, number, &mut out) } {
            OK => Some(Location { shard: out.shard, within: out.within }),
            NONE => None,
            status => unreachable!("status {status} of counts that begin with 0 and are as many"),
        }
    }

    /// The shard that holds a position of the joined bits; `None` past the end.
    ///
    /// ```
    /// use bitm_proved::{Location, PrefixCounts};
    /// let counts = PrefixCounts::new(&[10, 0, 7], &[4, 0, 2])?;
    /// assert_eq!(counts.find(9), Some(Location { shard: 0, within: 9 }));
    /// assert_eq!(counts.find(10), Some(Location { shard: 2, within: 0 }));
    /// assert_eq!(counts.find(17), None);
    /// # Ok::<(), bitm_proved::BuildError>(())
    /// ```
    pub fn find(&self, position: u64) -> Option<Location> {
        self.location(BITM_POSITIONS, position)
    }

    /// The shard that holds the 1 bit with a rank; `None` where there is none.
    ///
    /// ```
    /// use bitm_proved::{Location, PrefixCounts};
    /// let counts = PrefixCounts::new(&[10, 0, 7], &[4, 0, 2])?;
    /// assert_eq!(counts.find_one(3), Some(Location { shard: 0, within: 3 }));
    /// assert_eq!(counts.find_one(5), Some(Location { shard: 2, within: 1 }));
    /// assert_eq!(counts.find_one(6), None);
    /// # Ok::<(), bitm_proved::BuildError>(())
    /// ```
    pub fn find_one(&self, rank: u64) -> Option<Location> {
        self.location(BITM_ONES, rank)
    }

    /// The shard that holds the 0 bit with a rank; `None` where there is none.
    ///
    /// ```
    /// use bitm_proved::{Location, PrefixCounts};
    /// let counts = PrefixCounts::new(&[10, 0, 7], &[4, 0, 2])?;
    /// // Of 0 bits the shards have 6, none and 5.
    /// assert_eq!(counts.find_zero(5), Some(Location { shard: 0, within: 5 }));
    /// assert_eq!(counts.find_zero(6), Some(Location { shard: 2, within: 0 }));
    /// assert_eq!(counts.find_zero(11), None);
    /// # Ok::<(), bitm_proved::BuildError>(())
    /// ```
    pub fn find_zero(&self, rank: u64) -> Option<Location> {
        self.location(BITM_ZEROS, rank)
    }
}

/// Indexes of one process, one after the other, asked as one index of the joined bits.
///
/// ```
/// use bitm_proved::{build_tables, IndexView, ShardedIndex};
/// let (words, mut upper, mut lower) = ([0b1011_0110], [0], [0]);
/// build_tables(&words, &mut upper, &mut lower);
/// let shard = IndexView::new(&words, 6, &upper, &lower)?; // 0 1 1 0 1 1
/// let bits = ShardedIndex::new(&[shard, shard])?;
/// assert_eq!((bits.rank(9)?, bits.rank0(12)?, bits.rank(13)?), (Some(6), Some(4), None));
/// assert_eq!((bits.select(4)?, bits.select0(3)?, bits.select(8)?), (Some(7), Some(9), None));
/// # Ok::<(), bitm_proved::BuildError>(())
/// ```
#[derive(Clone)]
pub struct ShardedIndex<'a> {
    shards: Vec<bitm_index>,
    counts: PrefixCounts,
    borrows: PhantomData<&'a [u64]>,
}

// SAFETY: the pointers come from shared slices, and no call has state.
unsafe impl Send for ShardedIndex<'_> {}
// SAFETY: as for `Send`.
unsafe impl Sync for ShardedIndex<'_> {}

impl fmt::Debug for ShardedIndex<'_> {
    fn fmt(&self, f: &mut fmt::Formatter<'_>) -> fmt::Result {
        let PrefixCounts { bits, ones } = &self.counts;
        let (bits, ones) = (&bits[bits.len() - 1], &ones[ones.len() - 1]);
        f.debug_struct("ShardedIndex")
            .field("bits", bits)
            .field("ones", ones)
            .field("shards", &self.shards.len())
            .finish()
    }
}

impl<'a> ShardedIndex<'a> {
    /// Of these indexes, whose 1 bits are counted by their tables.
    ///
    /// # Errors
    /// `WrongTables` where a table turns out to be wrong, `TooManyBits` where all shards have 2^64 bits or more, and
    /// `NoMemory` where memory is refused.
    ///
    /// ```
    /// use bitm_proved::{Index, Queries, ShardedIndex};
    /// let (one, two) = (Index::build([7u64]), Index::build([1u64, 0]));
    /// let bits = ShardedIndex::new(&[one.view(), two.view()])?;
    /// assert_eq!((bits.rank(192)?, bits.select(3)?), (Some(4), Some(64)));
    /// # Ok::<(), bitm_proved::BuildError>(())
    /// ```
    pub fn new(shards: &[IndexView<'a>]) -> Result<Self, BuildError> {
        let count = shards.len();
        let (mut all, mut bits, mut ones) = (with_room(count)?, with_room(count)?, with_room(count)?);
        for shard in shards {
            all.push(*shard.raw());
            bits.push(shard.raw().bits_len);
            ones.push(ones_of(shard)?);
        }
        let counts = PrefixCounts::new(&bits, &ones)?;
        Ok(ShardedIndex { shards: all, counts, borrows: PhantomData })
    }

    /// How many bits and 1 bits there are before each shard.
    ///
    /// ```
    /// use bitm_proved::{Index, Queries, ShardedIndex};
    /// let shard = Index::build([7u64]); // 3 bits of 1, then 61 of 0
    /// let bits = ShardedIndex::new(&[shard.view(), shard.view()])?;
    /// assert_eq!(bits.counts().bits_before(), [0, 64, 128]);
    /// assert_eq!(bits.counts().ones_before(), [0, 3, 6]);
    /// # Ok::<(), bitm_proved::BuildError>(())
    /// ```
    pub fn counts(&self) -> &PrefixCounts {
        &self.counts
    }

    fn raw(&self) -> bitm_shards {
        bitm_shards {
            counts: self.counts.raw(),
            shards: self.shards.as_ptr(),
            shards_len: self.shards.len(),
            reserved: [0; 2],
        }
    }

    fn call(
        &self,
        call: unsafe extern "C" fn(*const bitm_shards, bool, u64, *mut u64) -> u32,
        one: bool,
        number: u64,
    ) -> Result<Option<u64>, WrongTables> {
        let raw = self.raw();
        // SAFETY: the counts and indexes borrow what they point to, and a call writes the number where it returns OK.
        unsafe { query(|out| call(&raw, one, number, out)) }
    }

    /// How many 1 bits there are before a position of the joined bits; `None` past their end.
    ///
    /// ```
    /// use bitm_proved::{Index, Queries, ShardedIndex};
    /// let shard = Index::build([7u64]); // 3 bits of 1, then 61 of 0
    /// let bits = ShardedIndex::new(&[shard.view(), shard.view()])?;
    /// assert_eq!((bits.rank(66)?, bits.rank(128)?, bits.rank(129)?), (Some(5), Some(6), None));
    /// # Ok::<(), bitm_proved::BuildError>(())
    /// ```
    pub fn rank(&self, position: u64) -> Result<Option<u64>, WrongTables> {
        self.call(bitm_shards_rank, true, position)
    }

    /// How many 0 bits there are before a position of the joined bits; `None` past their end.
    ///
    /// ```
    /// use bitm_proved::{Index, Queries, ShardedIndex};
    /// let shard = Index::build([7u64]); // 3 bits of 1, then 61 of 0
    /// let bits = ShardedIndex::new(&[shard.view(), shard.view()])?;
    /// assert_eq!((bits.rank0(66)?, bits.rank0(128)?, bits.rank0(129)?), (Some(61), Some(122), None));
    /// # Ok::<(), bitm_proved::BuildError>(())
    /// ```
    pub fn rank0(&self, position: u64) -> Result<Option<u64>, WrongTables> {
        self.call(bitm_shards_rank, false, position)
    }

    /// The position, in the joined bits, of the 1 bit with a rank; `None` where there is none.
    ///
    /// ```
    /// use bitm_proved::{Index, Queries, ShardedIndex};
    /// let shard = Index::build([7u64]); // 3 bits of 1, then 61 of 0
    /// let bits = ShardedIndex::new(&[shard.view(), shard.view()])?;
    /// assert_eq!((bits.select(2)?, bits.select(3)?, bits.select(6)?), (Some(2), Some(64), None));
    /// # Ok::<(), bitm_proved::BuildError>(())
    /// ```
    pub fn select(&self, rank: u64) -> Result<Option<u64>, WrongTables> {
        self.call(bitm_shards_select, true, rank)
    }

    /// The position, in the joined bits, of the 0 bit with a rank; `None` where there is none.
    ///
    /// ```
    /// use bitm_proved::{Index, Queries, ShardedIndex};
    /// let shard = Index::build([7u64]); // 3 bits of 1, then 61 of 0
    /// let bits = ShardedIndex::new(&[shard.view(), shard.view()])?;
    /// assert_eq!((bits.select0(60)?, bits.select0(61)?, bits.select0(122)?), (Some(63), Some(67), None));
    /// # Ok::<(), bitm_proved::BuildError>(())
    /// ```
    pub fn select0(&self, rank: u64) -> Result<Option<u64>, WrongTables> {
        self.call(bitm_shards_select, false, rank)
    }

    /// The position of the first 1 bit of the joined bits at or after `from`; `None` where there is none.
    ///
    /// ```
    /// use bitm_proved::{Index, Queries, ShardedIndex};
    /// let shard = Index::build([7u64]); // 3 bits of 1, then 61 of 0
    /// let bits = ShardedIndex::new(&[shard.view(), shard.view()])?;
    /// assert_eq!((bits.next_one(2)?, bits.next_one(3)?, bits.next_one(67)?), (Some(2), Some(64), None));
    /// # Ok::<(), bitm_proved::BuildError>(())
    /// ```
    pub fn next_one(&self, from: u64) -> Result<Option<u64>, WrongTables> {
        self.call(bitm_shards_next, true, from)
    }

    /// The position of the first 0 bit of the joined bits at or after `from`; `None` where there is none.
    ///
    /// ```
    /// use bitm_proved::{Index, Queries, ShardedIndex};
    /// let shard = Index::build([7u64]); // 3 bits of 1, then 61 of 0
    /// let bits = ShardedIndex::new(&[shard.view(), shard.view()])?;
    /// assert_eq!((bits.next_zero(0)?, bits.next_zero(64)?, bits.next_zero(128)?), (Some(3), Some(67), None));
    /// # Ok::<(), bitm_proved::BuildError>(())
    /// ```
    pub fn next_zero(&self, from: u64) -> Result<Option<u64>, WrongTables> {
        self.call(bitm_shards_next, false, from)
    }

    /// The position of the last 1 bit of the joined bits at or before `from`, which may be past the end; `None` where there
    /// is none.
    ///
    /// ```
    /// use bitm_proved::{Index, Queries, ShardedIndex};
    /// let shard = Index::build([7u64]); // 3 bits of 1, then 61 of 0
    /// let bits = ShardedIndex::new(&[shard.view(), shard.view()])?;
    /// assert_eq!((bits.previous_one(63)?, bits.previous_one(500)?, bits.previous_one(0)?), (Some(2), Some(66), Some(0)));
    /// # Ok::<(), bitm_proved::BuildError>(())
    /// ```
    pub fn previous_one(&self, from: u64) -> Result<Option<u64>, WrongTables> {
        self.call(bitm_shards_previous, true, from)
    }

    /// The position of the last 0 bit of the joined bits at or before `from`, which may be past the end; `None` where there
    /// is none.
    ///
    /// ```
    /// use bitm_proved::{Index, Queries, ShardedIndex};
    /// let shard = Index::build([7u64]); // 3 bits of 1, then 61 of 0
    /// let bits = ShardedIndex::new(&[shard.view(), shard.view()])?;
    /// assert_eq!((bits.previous_zero(66)?, bits.previous_zero(2)?), (Some(63), None));
    /// # Ok::<(), bitm_proved::BuildError>(())
    /// ```
    pub fn previous_zero(&self, from: u64) -> Result<Option<u64>, WrongTables> {
        self.call(bitm_shards_previous, false, from)
    }
}

/// The 1 bits of an index, by its tables.
fn ones_of(shard: &IndexView<'_>) -> Result<u64, WrongTables> {
    let all = usize::try_from(shard.raw().bits_len).map_err(|_| WrongTables)?;
    shard.rank_of(true, all)?.map(|it| it as u64).ok_or(WrongTables)
}
