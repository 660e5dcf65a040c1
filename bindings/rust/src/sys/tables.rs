//! Proved builds of the tables and the samples of words.
use crate::errors::{BuildError, NoMemory};
use crate::ffi::words::*;
use crate::sys::memory::{copied, zeroed};
use crate::sys::view::{IndexView, Samples};
use crate::sys::OK;
use alloc::vec::Vec;

/// The lengths of the upper and the lower table of the given number of words.
///
/// ```
/// assert_eq!(bitm_proved::table_lens(33), (1, 2));
/// ```
pub fn table_lens(words_len: usize) -> (usize, usize) {
    // SAFETY: a number is passed.
    unsafe { (bitm_index_upper_len(words_len), bitm_index_lower_len(words_len)) }
}

/// The greatest number of samples of one kind that the given number of words has, one for each 2^`log2` bits of it.
///
/// ```
/// assert_eq!(bitm_proved::samples_len(128, 7), 64);
/// ```
pub fn samples_len(words_len: usize, log2: u32) -> usize {
    // SAFETY: numbers are passed.
    unsafe { bitm_index_samples_len(words_len, log2) }
}

/// Writes both tables of the words, and returns the number of 1 bits; `None`, and nothing is written, where a table has
/// another length than theirs.
///
/// ```
/// let (mut upper, mut lower) = ([7], [7]);
/// assert_eq!(bitm_proved::build_tables(&[0b1011], &mut upper, &mut lower), Some(3));
/// assert_eq!(upper, [0]);
/// ```
pub fn build_tables(words: &[u64], upper: &mut [u64], lower: &mut [u64]) -> Option<usize> {
    let (at, len, mut ones) = (words.as_ptr(), words.len(), 0);
    // SAFETY: three slices that do not overlap, two of them mutable, and room for one number.
    let status = unsafe {
        let (u, l) = (upper.as_mut_ptr(), lower.as_mut_ptr());
        bitm_index_build(at, len, u, upper.len(), l, lower.len(), &mut ones)
    };
    (status == OK).then_some(ones as usize)
}

impl IndexView<'_> {
    /// Writes the samples of the 1 bits, or of the 0 bits where `one` is false, and returns how many there are; `None`,
    /// and nothing is written, where there is less room than `samples_len` says, or `starts` is not as long as the
    /// upper table.
    ///
    /// ```
    /// use bitm_proved::{samples_len, IndexView, Queries, RankSelect101111, BinaryRankSearch};
    /// let index: RankSelect101111 = vec![u64::MAX; 40].into_boxed_slice().into();
    /// let (mut samples, mut starts) = (vec![0; samples_len(40, 7)], [0]);
    /// assert_eq!(index.view().build_samples(true, 7, &mut samples, &mut starts), Some(20));
    /// ```
    pub fn build_samples(&self, one: bool, log2: u32, samples: &mut [u32], starts: &mut [u64]) -> Option<usize> {
        let (of, mut used) = (self.raw(), 0);
        let (s, t) = (samples.as_mut_ptr(), starts.as_mut_ptr());
        // SAFETY: a view, two mutable slices, and room for one number.
        let status = unsafe { bitm_index_build_samples(of, one, log2, s, samples.len(), t, starts.len(), &mut used) };
        (status == OK).then_some(used as usize)
    }
}

/// Both tables of words in memory of their own.
pub(crate) struct Tables {
    pub(crate) upper: Vec<u64>,
    pub(crate) lower: Vec<u64>,
}

impl Tables {
    pub(crate) fn of(words: &[u64]) -> Result<Self, BuildError> {
        let (upper_len, lower_len) = table_lens(words.len());
        let (mut upper, mut lower) = (zeroed(upper_len)?, zeroed(lower_len)?);
        build_tables(words, &mut upper, &mut lower).ok_or(BuildError::TooLong { len: words.len() })?;
        Ok(Tables { upper, lower })
    }
}

/// Samples in memory of their own.
#[derive(Default)]
pub(crate) struct OwnSamples {
    pub(crate) samples: Vec<u32>,
    pub(crate) starts: Vec<u64>,
    pub(crate) log2: u32,
}

impl OwnSamples {
    /// Of the words of a view, whose tables are right.
    pub(crate) fn of(view: &IndexView<'_>, one: bool, log2: u32) -> Result<Self, NoMemory> {
        let mut room = zeroed(samples_len(view.words().len(), log2))?;
        let mut starts = zeroed(view.upper().len())?;
        let used = view.build_samples(one, log2, &mut room, &mut starts);
        let used = used.unwrap_or(0);
        let samples = copied(&room[..used])?;
        Ok(OwnSamples { samples, starts, log2 })
    }

    pub(crate) fn view(&self) -> Samples<'_> {
        Samples { samples: &self.samples, starts: &self.starts, log2: self.log2 }
    }
}
