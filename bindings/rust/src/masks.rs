//! Masks, a division and a number of digits: Rust, as they are used in constants, where no library can be called.

/// The least number whose product with `d` is at least `n`. Tested, not proved.
///
/// ```
/// assert_eq!(bitm_proved::ceiling_div(65, 64), 2);
/// ```
#[inline(always)]
pub const fn ceiling_div(n: usize, d: usize) -> usize {
    n.div_ceil(d)
}

/// The number whose `how_many` lowest bits are 1 bits, for 0 to 63. Tested, not proved.
///
/// ```
/// assert_eq!(bitm_proved::n_lowest_bits(3), 0b111);
/// ```
#[inline(always)]
pub const fn n_lowest_bits(how_many: u8) -> u64 {
    (1u64 << how_many) - 1
}

/// The number whose `how_many` lowest bits are 1 bits, for 1 to 64. Tested, not proved.
///
/// ```
/// assert_eq!(bitm_proved::n_lowest_bits_1_64(64), u64::MAX);
/// ```
#[inline(always)]
pub const fn n_lowest_bits_1_64(how_many: u8) -> u64 {
    u64::MAX >> (64 - how_many)
}

/// The number whose `how_many` lowest bits are 1 bits; all 64 where it is more. Tested, not proved.
///
/// ```
/// use bitm_proved::n_lowest_bits_0_64;
/// assert_eq!((n_lowest_bits_0_64(0), n_lowest_bits_0_64(64)), (0, u64::MAX));
/// ```
#[inline(always)]
pub const fn n_lowest_bits_0_64(how_many: u8) -> u64 {
    if how_many < 64 {
        n_lowest_bits(how_many)
    } else {
        u64::MAX
    }
}

/// How many binary digits a number has, 0 for 0. Tested beside the proved call, not proved.
///
/// ```
/// use bitm_proved::bits_to_store;
/// assert_eq!((bits_to_store(0u64), bits_to_store(7u64), bits_to_store(8u64)), (0, 3, 4));
/// ```
#[inline]
pub fn bits_to_store<V: Into<u64>>(max_value: V) -> u8 {
    (64 - max_value.into().leading_zeros()) as u8
}
