//! A list of numbers in any order and the owner of its block.
use crate::errors::{made, BuildError, StoredError};
use crate::sys::held::Held;
use crate::sys::matrix::{build, width_of, WaveletMatrixView, With};
use crate::sys::memory::copied;
use crate::sys::owner::owners_of_blocks;
use alloc::vec::Vec;
use core::fmt;

/// A list of numbers in any order (a wavelet matrix) and the owner of its block, in about 1.03 times the bits of the
/// numbers.
///
/// It answers where and how often a number is in the list, and which numbers of a range are the least. The block is the
/// file of the list, the same in each language.
///
/// ```
/// use bitm_proved::WaveletMatrix;
/// let numbers = WaveletMatrix::build(&[3, 1, 4, 1, 5, 1])?;
/// assert_eq!((numbers.get(4), numbers.rank(1, 4), numbers.select(1, 2)), (Some(5), Some(2), Some(5)));
/// assert_eq!((numbers.count_less(1..5, 4), numbers.quantile(1..5, 2)), (Some(2), Some(4)));
/// assert_eq!((numbers.next_value(1..5, 2), numbers.previous_value(1..5, 4)), (Some(4), Some(1)));
/// # Ok::<(), bitm_proved::BuildError>(())
/// ```
pub struct WaveletMatrix<O = Vec<u64>> {
    view: WaveletMatrixView<'static>,
    held: Held<O>,
}

impl WaveletMatrix {
    /// Of numbers, of as many bits as the largest has.
    ///
    /// # Errors
    /// `TooLong` where there are too many numbers, and `NoMemory` where memory is refused.
    ///
    /// ```
    /// use bitm_proved::WaveletMatrix;
    /// let numbers = WaveletMatrix::build(&[3, 1, 4])?;
    /// assert_eq!((numbers.get(2), numbers.width()), (Some(4), 3));
    /// # Ok::<(), bitm_proved::BuildError>(())
    /// ```
    pub fn build(numbers: &[u64]) -> Result<Self, BuildError> {
        Self::build_with(numbers, width_of(numbers.iter().fold(1, |all, it| all | it)))
    }

    /// Of numbers of at most `width` bits, which is 1 to 64.
    ///
    /// # Errors
    /// As of `build`; `TooWide` where a number has more bits than the width, and `WrongWidth` where this is not 1 to
    /// 64.
    ///
    /// ```
    /// use bitm_proved::{BuildError, WaveletMatrix};
    /// assert_eq!(WaveletMatrix::build_with(&[3, 1, 4], 8)?.width(), 8);
    /// let why = WaveletMatrix::build_with(&[3, 1, 4], 2).err();
    /// assert_eq!(why, Some(BuildError::TooWide { index: 2, number: 4, width: 2 }));
    /// # Ok::<(), BuildError>(())
    /// ```
    pub fn build_with(numbers: &[u64], width: u32) -> Result<Self, BuildError> {
        Self::made(numbers, width, With::default())
    }

    fn made(numbers: &[u64], width: u32, with: With) -> Result<Self, BuildError> {
        Self::of_block(build(numbers, width, with, None)?, BuildError::TooLong { len: numbers.len() })
    }

    /// Of numbers of at most `width` bits, with quarters: counts of 1 bits for every eight words. The block takes an
    /// eighth more, and most queries read fewer words.
    ///
    /// # Errors
    /// As of `build_with`.
    ///
    /// ```
    /// use bitm_proved::WaveletMatrix;
    /// let numbers = WaveletMatrix::build_with_quarters(&[3, 1, 4], 3)?;
    /// assert_eq!((numbers.get(2), numbers.rank(1, 3), numbers.block().len()), (Some(4), Some(1), 88));
    /// # Ok::<(), bitm_proved::BuildError>(())
    /// ```
    pub fn build_with_quarters(numbers: &[u64], width: u32) -> Result<Self, BuildError> {
        Self::made(numbers, width, With { quarters: true, hints: false })
    }

    /// Of numbers of at most `width` bits, with hints, and with quarters or without. Hints are positions of bits, by
    /// which `select` reads fewer words; the block takes a quarter of the numbers' bits more.
    ///
    /// # Errors
    /// As of `build_with`.
    ///
    /// ```
    /// use bitm_proved::WaveletMatrix;
    /// let numbers = WaveletMatrix::build_with_hints(&[3, 1, 4, 1], 3, false)?;
    /// assert_eq!((numbers.select(1, 1), numbers.select(1, 2), numbers.block().len()), (Some(3), None, 88));
    /// # Ok::<(), bitm_proved::BuildError>(())
    /// ```
    pub fn build_with_hints(numbers: &[u64], width: u32, quarters: bool) -> Result<Self, BuildError> {
        Self::made(numbers, width, With { quarters, hints: true })
    }

    /// As `build_with`, or with quarters or hints, level by level: `progress(done, total)` is called after each bit of
    /// the numbers, at last with `width` of `width`. Where it panics, all memory is freed. The block is the same.
    ///
    /// # Errors
    /// As of `build_with`.
    ///
    /// ```
    /// use bitm_proved::WaveletMatrix;
    /// let mut steps = vec![];
    /// let told = |done, total| steps.push((done, total));
    /// let made = WaveletMatrix::build_with_progress(&[3, 1, 4], 3, false, false, told)?;
    /// assert_eq!((steps, made.block()), (vec![(1, 3), (2, 3), (3, 3)], WaveletMatrix::build(&[3, 1, 4])?.block()));
    /// # Ok::<(), bitm_proved::BuildError>(())
    /// ```
    pub fn build_with_progress(
        numbers: &[u64],
        width: u32,
        quarters: bool,
        hints: bool,
        mut progress: impl FnMut(usize, usize),
    ) -> Result<Self, BuildError> {
        let otherwise = BuildError::TooLong { len: numbers.len() };
        Self::of_block(build(numbers, width, With { quarters, hints }, Some(&mut progress))?, otherwise)
    }
}

owners_of_blocks! { WaveletMatrix with WaveletMatrixView;
    "list", "bitm_proved::WaveletMatrix::build(&[3, 1, 4])?", "3"
}
