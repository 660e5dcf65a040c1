//! The methods of `BitAccess` that count, find and list bits.

macro_rules! found_bits {
    () => {
        /// How many bits are 0. One proved call.
        ///
        /// ```
        /// use bitm_proved::BitAccess;
        /// assert_eq!([0b1011u64, 0].count_bit_zeros(), 125); // of 128 bits
        /// ```
        fn count_bit_zeros(&self) -> usize;
        /// How many bits are 1. One proved call.
        ///
        /// ```
        /// use bitm_proved::BitAccess;
        /// assert_eq!([0b1011u64, 1].count_bit_ones(), 4);
        /// ```
        fn count_bit_ones(&self) -> usize;
        /// The positions of the 1 bits, in increasing order. Tested, not proved.
        ///
        /// ```
        /// use bitm_proved::BitAccess;
        /// assert_eq!([0b1011u64, 1].bit_ones().collect::<Vec<_>>(), [0, 1, 3, 64]);
        /// ```
        fn bit_ones(&self) -> BitOnesIterator<'_>;
        /// The positions of the 0 bits, in increasing order. Tested, not proved.
        ///
        /// ```
        /// use bitm_proved::BitAccess;
        /// assert!([!0b1011u64, !1].bit_zeros().eq([0, 1, 3, 64]));
        /// ```
        fn bit_zeros(&self) -> BitZerosIterator<'_>;
        /// The bits. Tested, not proved.
        ///
        /// ```
        /// use bitm_proved::BitAccess;
        /// let words = [0b1011u64];
        /// assert!(words.bit_iter().take(4).eq([true, true, false, true]));
        /// assert_eq!(words.bit_iter().rposition(|it| it), Some(3));
        /// ```
        fn bit_iter(&self) -> BitIterator<'_>;
        /// The bits of a range. Tested, not proved.
        ///
        /// ```
        /// use bitm_proved::BitAccess;
        /// assert!([0b1011u64].bit_in_range_iter(1..4).eq([true, false, true]));
        /// ```
        fn bit_in_range_iter(&self, bit_range: Range<usize>) -> BitIterator<'_>;
        /// As `bit_in_range_iter`.
        ///
        /// # Safety
        /// It is inside. (This is tested all the same.)
        ///
        /// ```
        /// use bitm_proved::BitAccess;
        /// // SAFETY: there are 64 bits.
        /// assert!(unsafe { [0b1011u64].bit_in_unchecked_range_iter(2..4) }.eq([false, true]));
        /// ```
        unsafe fn bit_in_unchecked_range_iter(&self, bit_range: Range<usize>) -> BitIterator<'_>;
        /// The position of the first 1 bit; the number of bits where there is none. One proved call.
        ///
        /// ```
        /// use bitm_proved::BitAccess;
        /// assert_eq!(([0, 0b100u64].trailing_zero_bits(), [0u64, 0].trailing_zero_bits()), (66, 128));
        /// ```
        fn trailing_zero_bits(&self) -> usize;
        /// The position of the first 1 bit at or after `start_index`. Panics where there is none. One proved call.
        ///
        /// # Safety
        /// There is one. (This is tested all the same.)
        ///
        /// ```
        /// use bitm_proved::BitAccess;
        /// // SAFETY: bit 3 is 1.
        /// assert_eq!(unsafe { [0b1011u64].find_bit_one_unchecked(2) }, 3);
        /// ```
        unsafe fn find_bit_one_unchecked(&self, start_index: usize) -> usize;
        /// The position of the first 1 bit at or after `start_index`; `None` exactly where there is none. One proved
        /// call.
        ///
        /// ```
        /// use bitm_proved::BitAccess;
        /// let words = [0b1011u64];
        /// assert_eq!([1, 2, 4].map(|at| words.find_bit_one(at)), [Some(1), Some(3), None]);
        /// ```
        fn find_bit_one(&self, start_index: usize) -> Option<usize>;
        /// The position of the last 1 bit at or before `start_index`. Panics where there is none. One proved call.
        ///
        /// # Safety
        /// There is one. (This is tested all the same.)
        ///
        /// ```
        /// use bitm_proved::BitAccess;
        /// // SAFETY: bits 0 and 1 are 1.
        /// assert_eq!(unsafe { [0b1011u64].rfind_bit_one_unchecked(2) }, 1);
        /// ```
        unsafe fn rfind_bit_one_unchecked(&self, start_index: usize) -> usize;
    };
}
pub(super) use found_bits;
