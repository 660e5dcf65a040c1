//! How many items one sample stands for.

/// The logarithm of a density that takes about as much memory for any share of 1 bits: 7 up to `max_result`, which is 7
/// to 31. `n` is how many of `len` bits are of the kind. Tested beside the proved call, not proved, as it is used in
/// constants.
///
/// ```
/// use bitm_proved::optimal_combined_sampling;
/// assert_eq!((optimal_combined_sampling(500, 1000, 13), optimal_combined_sampling(0, 1000, 13)), (12, 7));
/// ```
pub const fn optimal_combined_sampling(n: usize, len: usize, max_result: u8) -> u8 {
    let (these, all) = (n as u128, len as u128);
    if 4 * these >= 3 * all {
        return max_result;
    }
    let rarer = if 2 * these > all { len - n } else { n };
    if rarer == 0 {
        return 7;
    }
    let log2 = max_result.saturating_sub((len / rarer).ilog2() as u8);
    if log2 < 7 {
        7
    } else {
        log2
    }
}

/// How many items one sample stands for: a power of two, with a logarithm of 7 to 31. A density may be of a user's own;
/// no answer depends on it.
///
/// ```
/// use bitm_proved::{CombinedSampling, CombinedSamplingDensity, RankSelect101111, Select};
/// #[derive(Clone, Copy)]
/// struct Eight;
/// impl CombinedSamplingDensity for Eight {
///     type SamplingDensity = ();
///     fn density_for(_number_of_items: usize, _len: usize) {}
///     fn items_per_sample_log2(_: ()) -> u8 {
///         8
///     }
/// }
/// let bits: RankSelect101111<CombinedSampling<Eight>> = vec![0b1011].into_boxed_slice().into();
/// assert_eq!(bits.select(2), 3);
/// ```
pub trait CombinedSamplingDensity: Copy {
    /// The choice, as it is stored.
    ///
    /// ```
    /// use bitm_proved::{CombinedSamplingDensity, ConstCombinedSamplingDensity};
    /// type Stored = <ConstCombinedSamplingDensity<10> as CombinedSamplingDensity>::SamplingDensity;
    /// assert_eq!(size_of::<Stored>(), 0); // the type has the choice
    /// ```
    type SamplingDensity: Copy;
    /// The choice for the given number of items of `len` bits.
    ///
    /// ```
    /// use bitm_proved::{AdaptiveCombinedSamplingDensity, CombinedSamplingDensity};
    /// assert_eq!(AdaptiveCombinedSamplingDensity::<13>::density_for(1000, 1000), 13); // the limit, for 1 bits alone
    /// ```
    fn density_for(number_of_items: usize, len: usize) -> Self::SamplingDensity;
    /// The logarithm.
    ///
    /// ```
    /// use bitm_proved::{CombinedSamplingDensity, ConstCombinedSamplingDensity};
    /// assert_eq!(ConstCombinedSamplingDensity::<9>::items_per_sample_log2(()), 9);
    /// ```
    fn items_per_sample_log2(density: Self::SamplingDensity) -> u8;
    /// How many items one sample stands for. Tested, not proved.
    ///
    /// ```
    /// use bitm_proved::{CombinedSamplingDensity, ConstCombinedSamplingDensity};
    /// assert_eq!(ConstCombinedSamplingDensity::<9>::items_per_sample(()), 512);
    /// ```
    #[inline]
    fn items_per_sample(density: Self::SamplingDensity) -> u32 {
        1 << Self::items_per_sample_log2(density)
    }
    /// The sample of an item. Tested, not proved.
    ///
    /// ```
    /// use bitm_proved::{CombinedSamplingDensity, ConstCombinedSamplingDensity};
    /// type Density = ConstCombinedSamplingDensity<9>; // a sample for each 512 items
    /// assert_eq!([511, 512, 1024].map(|index| Density::divide(index, ())), [0, 1, 2]);
    /// ```
    #[inline]
    fn divide(index: usize, density: Self::SamplingDensity) -> usize {
        index >> Self::items_per_sample_log2(density)
    }
    /// Whether an item is in the second half of the items of its sample. Tested, not proved.
    ///
    /// ```
    /// use bitm_proved::{CombinedSamplingDensity, ConstCombinedSamplingDensity};
    /// type Density = ConstCombinedSamplingDensity<9>; // a sample for each 512 items
    /// assert_eq!([255, 256, 512].map(|index| Density::is_in_second_half(index, ())), [false, true, false]);
    /// ```
    #[inline]
    fn is_in_second_half(index: usize, density: Self::SamplingDensity) -> bool {
        index >> (Self::items_per_sample_log2(density) - 1) & 1 == 1
    }
}

/// 2^`VALUE_LOG2` items a sample.
///
/// ```
/// use bitm_proved::{CombinedSamplingDensity, ConstCombinedSamplingDensity};
/// assert_eq!(ConstCombinedSamplingDensity::<10>::items_per_sample_log2(()), 10);
/// ```
#[derive(Clone, Copy, PartialEq, Eq, Debug, Default)]
pub struct ConstCombinedSamplingDensity<const VALUE_LOG2: u8 = 13>;

impl<const VALUE_LOG2: u8> CombinedSamplingDensity for ConstCombinedSamplingDensity<VALUE_LOG2> {
    type SamplingDensity = ();
    #[inline]
    fn density_for(_number_of_items: usize, _len: usize) {}
    #[inline]
    fn items_per_sample_log2(_density: ()) -> u8 {
        VALUE_LOG2
    }
}

/// As many items a sample as `optimal_combined_sampling` says, with the limit `MAX_RESULT`.
///
/// ```
/// use bitm_proved::{AdaptiveCombinedSamplingDensity, CombinedSamplingDensity};
/// assert_eq!(AdaptiveCombinedSamplingDensity::<13>::density_for(500, 1000), 12);
/// ```
#[derive(Clone, Copy, PartialEq, Eq, Debug, Default)]
pub struct AdaptiveCombinedSamplingDensity<const MAX_RESULT: u8 = 13>;

impl<const MAX_RESULT: u8> CombinedSamplingDensity for AdaptiveCombinedSamplingDensity<MAX_RESULT> {
    type SamplingDensity = u8;
    #[inline]
    fn density_for(number_of_items: usize, len: usize) -> u8 {
        optimal_combined_sampling(number_of_items, len, MAX_RESULT)
    }
    #[inline]
    fn items_per_sample_log2(density: u8) -> u8 {
        density
    }
}
