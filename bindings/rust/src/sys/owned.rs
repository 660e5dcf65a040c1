//! A sequence and the owner of its file.
use crate::errors::{made, BuildError, StoredError};
use crate::sys::held::Held;
use crate::sys::memory::copied;
use crate::sys::owner::owners_of_blocks;
use crate::sys::sequence::{build, SequenceView};
use alloc::vec::Vec;
use core::fmt;

/// A monotone integer sequence (Elias-Fano) and the owner of its parts, in about 2.6 + log2(greatest / length) bits a
/// number.
///
/// ```
/// use bitm_proved::Sequence;
/// let primes = Sequence::build(&[2, 3, 5, 7, 11, 13])?;
/// assert_eq!((primes.get(4), primes.get(6), primes.len()), (Some(11), None, 6));
/// assert_eq!((primes.first_at_least(8), primes.last_at_most(8)), (Some(4), Some(3)));
/// assert!(primes.contains(7) && !primes.contains(8) && !primes.is_empty() && primes.check());
/// # Ok::<(), bitm_proved::BuildError>(())
/// ```
pub struct Sequence<O = Vec<u64>> {
    view: SequenceView<'static>,
    held: Held<O>,
}

/// A sequence in a vector.
///
/// ```
/// use bitm_proved::EliasFano;
/// let squares: Vec<u64> = (0..1000).map(|it| it * it).collect();
/// assert_eq!(EliasFano::build(&squares)?.get(999), Some(998_001));
/// # Ok::<(), bitm_proved::BuildError>(())
/// ```
pub type EliasFano = Sequence<Vec<u64>>;

impl EliasFano {
    /// The sequence of the numbers; each has to be at least the one before it.
    ///
    /// # Errors
    /// `NotSorted` where a number is less than the one before it, `TooLong` where there are 2^56 numbers or more, and
    /// `NoMemory` where memory is refused.
    ///
    /// ```
    /// use bitm_proved::{BuildError, EliasFano};
    /// let squares = EliasFano::build(&[0, 1, 4, 4, 9])?;
    /// assert_eq!((squares.get(3), squares.get(4), squares.get(5)), (Some(4), Some(9), None));
    /// let why = EliasFano::build(&[3, 2]).err();
    /// assert_eq!(why, Some(BuildError::NotSorted { index: 1, number: 2, before: 3 }));
    /// # Ok::<(), BuildError>(())
    /// ```
    pub fn build(items: &[u64]) -> Result<Self, BuildError> {
        Self::of_block(build(items)?, BuildError::TooLong { len: items.len() })
    }
}

owners_of_blocks! { Sequence with SequenceView;
    "sequence", "bitm_proved::EliasFano::build(&[2, 3, 5])?", "3", "&made.to_stored()?",
    |it| it.view().block().unwrap_or(it.owner())
}
