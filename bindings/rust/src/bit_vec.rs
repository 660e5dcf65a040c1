//! Constructors of vectors of words.
use crate::errors::{made, NoMemory};
use crate::sys::{memory, writes};
use alloc::boxed::Box;

/// Constructors of vectors of words. Those without `try_` panic where memory is refused.
///
/// ```
/// use bitm_proved::{BitAccess, BitVec};
/// let mut bits = Box::<[u64]>::with_zeroed_bits(100); // of 128 bits, since words are whole
/// bits.set_bit(99);
/// assert_eq!(*bits, [0, 1 << 35]);
/// ```
pub trait BitVec
where
    Self: Sized,
{
    /// `segments_len` words equal to `segments_value`.
    ///
    /// ```
    /// use bitm_proved::BitVec;
    /// assert_eq!(*Box::<[u64]>::with_64bit_segments(5, 2), [5, 5]);
    /// ```
    fn with_64bit_segments(segments_value: u64, segments_len: usize) -> Self;
    /// `words_count` fragments of `word_len_bits` bits, each equal to `word`, and 0 bits after them.
    ///
    /// ```
    /// use bitm_proved::BitVec;
    /// assert_eq!(*Box::<[u64]>::with_bitwords(0b101, 3, 4), [0b101_101_101_101]);
    /// ```
    fn with_bitwords(word: u64, word_len_bits: u8, words_count: usize) -> Self;
    /// `segments_len` words 0.
    ///
    /// ```
    /// use bitm_proved::BitVec;
    /// assert_eq!(*Box::<[u64]>::with_zeroed_64bit_segments(2), [0, 0]);
    /// ```
    #[track_caller]
    fn with_zeroed_64bit_segments(segments_len: usize) -> Self {
        Self::with_64bit_segments(0, segments_len)
    }
    /// `segments_len` words `u64::MAX`.
    ///
    /// ```
    /// use bitm_proved::BitVec;
    /// assert_eq!(*Box::<[u64]>::with_filled_64bit_segments(1), [u64::MAX]);
    /// ```
    #[track_caller]
    fn with_filled_64bit_segments(segments_len: usize) -> Self {
        Self::with_64bit_segments(u64::MAX, segments_len)
    }
    /// As many words 0 as `bit_len` bits need.
    ///
    /// ```
    /// use bitm_proved::BitVec;
    /// assert_eq!(*Box::<[u64]>::with_zeroed_bits(65), [0, 0]);
    /// ```
    #[track_caller]
    fn with_zeroed_bits(bit_len: usize) -> Self {
        Self::with_zeroed_64bit_segments(bit_len.div_ceil(64))
    }
    /// As many words `u64::MAX` as `bit_len` bits need; the whole last word is filled.
    ///
    /// ```
    /// use bitm_proved::{BitAccess, BitVec};
    /// assert_eq!(Box::<[u64]>::with_filled_bits(65).count_bit_ones(), 128);
    /// ```
    #[track_caller]
    fn with_filled_bits(bit_len: usize) -> Self {
        Self::with_filled_64bit_segments(bit_len.div_ceil(64))
    }
    /// As `with_64bit_segments`; types of this crate return an error where memory is refused.
    ///
    /// ```
    /// use bitm_proved::{BitVec, NoMemory};
    /// assert_eq!(*Box::<[u64]>::try_with_64bit_segments(9, 1)?, [9]);
    /// assert_eq!(Box::<[u64]>::try_with_64bit_segments(9, 1 << 59), Err(NoMemory { bytes: 1 << 62 }));
    /// # Ok::<(), NoMemory>(())
    /// ```
    fn try_with_64bit_segments(value: u64, segments_len: usize) -> Result<Self, NoMemory> {
        Ok(Self::with_64bit_segments(value, segments_len))
    }
    /// As `with_bitwords`; types of this crate return an error where memory is refused.
    ///
    /// ```
    /// use bitm_proved::BitVec;
    /// assert_eq!(*Box::<[u64]>::try_with_bitwords(0x1, 4, 3)?, [0x111]);
    /// assert!(Box::<[u64]>::try_with_bitwords(1, 8, 1 << 59).is_err());
    /// # Ok::<(), bitm_proved::NoMemory>(())
    /// ```
    fn try_with_bitwords(word: u64, width: u8, words_count: usize) -> Result<Self, NoMemory> {
        Ok(Self::with_bitwords(word, width, words_count))
    }
    /// As `with_zeroed_bits`, by `try_with_64bit_segments`.
    ///
    /// ```
    /// use bitm_proved::BitVec;
    /// assert_eq!(*Box::<[u64]>::try_with_zeroed_bits(64)?, [0]);
    /// assert!(Box::<[u64]>::try_with_zeroed_bits(1 << 62).is_err());
    /// # Ok::<(), bitm_proved::NoMemory>(())
    /// ```
    fn try_with_zeroed_bits(bit_len: usize) -> Result<Self, NoMemory> {
        Self::try_with_64bit_segments(0, bit_len.div_ceil(64))
    }
    /// As `with_filled_bits`, by `try_with_64bit_segments`.
    ///
    /// ```
    /// use bitm_proved::BitVec;
    /// assert_eq!(*Box::<[u64]>::try_with_filled_bits(9)?, [u64::MAX]);
    /// # Ok::<(), bitm_proved::NoMemory>(())
    /// ```
    fn try_with_filled_bits(bit_len: usize) -> Result<Self, NoMemory> {
        Self::try_with_64bit_segments(u64::MAX, bit_len.div_ceil(64))
    }
}

impl BitVec for Box<[u64]> {
    #[track_caller]
    fn with_64bit_segments(segments_value: u64, segments_len: usize) -> Self {
        made(Self::try_with_64bit_segments(segments_value, segments_len))
    }
    #[track_caller]
    fn with_bitwords(word: u64, word_len_bits: u8, words_count: usize) -> Self {
        made(Self::try_with_bitwords(word, word_len_bits, words_count))
    }
    fn try_with_64bit_segments(value: u64, segments_len: usize) -> Result<Self, NoMemory> {
        memory::filled(value, segments_len)
    }
    #[track_caller]
    fn try_with_bitwords(word: u64, width: u8, words_count: usize) -> Result<Self, NoMemory> {
        fragments(word, width, words_count)
    }
}

/// Fragments that are all equal. Panics where the number has more bits than the width, or this is above 64.
#[track_caller]
fn fragments(word: u64, width: u8, count: usize) -> Result<Box<[u64]>, NoMemory> {
    let fits = width == 64 || (width < 64 && word >> width == 0);
    assert!(fits, "{word} does not fit into {width} bits, or these are more than 64");
    let bits = count.checked_mul(width.into());
    let bits = bits.ok_or(NoMemory { bytes: usize::MAX })?;
    let mut all = memory::filled(0, bits.div_ceil(64))?;
    writes::fill_fragments(&mut all, bits, width, word, count);
    Ok(all)
}

#[cfg(feature = "aligned-vec")]
impl<const ALIGN: usize> BitVec for aligned_vec::ABox<[u64], aligned_vec::ConstAlign<ALIGN>> {
    fn with_64bit_segments(segments_value: u64, segments_len: usize) -> Self {
        let mut words = aligned_vec::AVec::with_capacity(ALIGN, segments_len);
        words.resize(segments_len, segments_value);
        words.into_boxed_slice()
    }
    fn with_bitwords(word: u64, word_len_bits: u8, words_count: usize) -> Self {
        let bits = words_count * word_len_bits as usize;
        let mut all = Self::with_zeroed_bits(bits);
        let done = writes::fill_fragments(&mut all, bits, word_len_bits, word, words_count);
        assert!(done.is_some(), "a fragment has at most 64 bits, not {word_len_bits}");
        all
    }
}
