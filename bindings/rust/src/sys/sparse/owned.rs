//! Sparse bits and the owner of their block.
use crate::errors::{made, BuildError, StoredError};
use crate::sys::held::Held;
use crate::sys::memory::copied;
use crate::sys::owner::owners_of_blocks;
use crate::sys::sparse::{build, SparseBitsView};
use alloc::vec::Vec;
use core::fmt;

/// Bits with few 1 bits, and the owner of their block: about 2.6 + log2(n / m) bits for each of m 1 bits among n bits.
///
/// The positions of the 1 bits are kept as a monotone sequence; the queries are the ones of an index. The block is the
/// file of the bits, the same in each language.
///
/// ```
/// use bitm_proved::SparseBits;
/// let bits = SparseBits::build(&[3, 100, 101, 4000], 5000)?;
/// assert_eq!((bits.get(100), bits.rank(101), bits.select(3)), (Some(true), Some(2), Some(4000)));
/// assert_eq!((bits.rank0(101), bits.select0(3), bits.previous_zero(101)), (Some(99), Some(4), Some(99)));
/// # Ok::<(), bitm_proved::BuildError>(())
/// ```
pub struct SparseBits<O = Vec<u64>> {
    view: SparseBitsView<'static>,
    held: Held<O>,
}

impl SparseBits {
    /// Of `len` bits with 1 bits at the positions: each position is greater than the one before it, and less than
    /// `len`.
    ///
    /// # Errors
    /// `NotRising` where a position is not greater than the one before it, `PastEnd` where one is not less than `len`,
    /// `TooLong` where there are too many, and `NoMemory` where memory is refused.
    ///
    /// ```
    /// use bitm_proved::{BuildError, SparseBits};
    /// assert_eq!(SparseBits::build(&[3, 100], 5000)?.len(), 5000);
    /// let why = SparseBits::build(&[3, 3], 5000).err();
    /// assert_eq!(why, Some(BuildError::NotRising { index: 1, position: 3, before: 3 }));
    /// let why = SparseBits::build(&[3, 100], 100).err();
    /// assert_eq!(why, Some(BuildError::PastEnd { index: 1, position: 100, len: 100 }));
    /// # Ok::<(), BuildError>(())
    /// ```
    pub fn build(positions: &[u64], len: usize) -> Result<Self, BuildError> {
        Self::of_block(build(positions, len)?, BuildError::TooLong { len: positions.len() })
    }
}

owners_of_blocks! { SparseBits with SparseBitsView;
    "bits", "bitm_proved::SparseBits::build(&[3, 100], 5000)?", "5000"
}
