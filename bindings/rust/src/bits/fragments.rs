//! The methods of `BitAccess` for arrays of numbers of the same width, the fragments.

macro_rules! fragments {
    () => {
        /// As `prefetch_bit`, of the first bit of a fragment.
        ///
        /// ```
        /// use bitm_proved::BitAccess;
        /// let words = vec![0x1111_1111_1111_1111u64; 1000];
        /// words.prefetch_fragment(9_000, 4); // while other work is done
        /// assert_eq!(words.get_fragment(9_000, 4), 1);
        /// ```
        fn prefetch_fragment(&self, index: usize, v_size: u8) {
            self.prefetch_bit(index.wrapping_mul(v_size as usize))
        }
        /// Fragment `index` of fragments of `v_size` bits, unmasked. Tested, not proved.
        ///
        /// ```
        /// use bitm_proved::BitAccess;
        /// assert_eq!([0xABCDu64].get_fragment_unmasked(2, 4), 0xAB); // up to the end of the word
        /// ```
        #[track_caller]
        fn get_fragment_unmasked(&self, index: usize, v_size: u8) -> u64 {
            self.get_bits_unmasked(begin_of(index, v_size), v_size)
        }
        /// Number `index` of an array of numbers of `v_size` bits. Tested, not proved.
        ///
        /// ```
        /// use bitm_proved::BitAccess;
        /// let words = [0xABCDu64];
        /// assert_eq!([0, 1, 2, 3].map(|index| words.get_fragment(index, 4)), [0xD, 0xC, 0xB, 0xA]);
        /// ```
        #[track_caller]
        fn get_fragment(&self, index: usize, v_size: u8) -> u64 {
            self.get_bits(begin_of(index, v_size), v_size)
        }
        /// As `get_fragment_unmasked`; `None` exactly where it is not inside.
        ///
        /// ```
        /// use bitm_proved::BitAccess;
        /// let words = [0xABCDu64]; // 16 fragments of 4 bits
        /// let found = [2, 16].map(|index| words.try_get_fragment_unmasked(index, 4));
        /// assert_eq!(found, [Some(0xAB), None]);
        /// ```
        fn try_get_fragment_unmasked(&self, index: usize, v_size: u8) -> Option<u64> {
            self.try_get_bits_unmasked(index.checked_mul(v_size as usize)?, v_size)
        }
        /// As `get_fragment`; `None` exactly where it is not inside.
        ///
        /// ```
        /// use bitm_proved::BitAccess;
        /// let words = [0xABCDu64]; // 16 fragments of 4 bits
        /// assert_eq!([2, 16].map(|index| words.try_get_fragment(index, 4)), [Some(0xB), None]);
        /// ```
        fn try_get_fragment(&self, index: usize, v_size: u8) -> Option<u64> {
            self.try_get_bits(index.checked_mul(v_size as usize)?, v_size)
        }
        /// As `get_fragment_unmasked`.
        ///
        /// # Safety
        /// It is inside. (This is tested all the same.)
        ///
        /// ```
        /// use bitm_proved::BitAccess;
        /// // SAFETY: there are 16 fragments.
        /// assert_eq!(unsafe { [0xABCDu64].get_fragment_unmasked_unchecked(2, 4) }, 0xAB);
        /// ```
        #[track_caller]
        unsafe fn get_fragment_unmasked_unchecked(&self, index: usize, v_size: u8) -> u64 {
            self.get_fragment_unmasked(index, v_size)
        }
        /// As `get_fragment`.
        ///
        /// # Safety
        /// It is inside. (This is tested all the same.)
        ///
        /// ```
        /// use bitm_proved::BitAccess;
        /// // SAFETY: there are 16 fragments.
        /// assert_eq!(unsafe { [0xABCDu64].get_fragment_unchecked(2, 4) }, 0xB);
        /// ```
        #[track_caller]
        unsafe fn get_fragment_unchecked(&self, index: usize, v_size: u8) -> u64 {
            self.get_fragment(index, v_size)
        }
        /// As `get_fragment`.
        ///
        /// ```
        /// use bitm_proved::BitAccess;
        /// let (words, mut index) = ([0xABCDu64], 1);
        /// let two = [words.get_successive_fragment(&mut index, 4), words.get_successive_fragment(&mut index, 4)];
        /// assert_eq!((two, index), ([0xC, 0xB], 3));
        /// ```
        #[track_caller]
        fn get_successive_fragment(&self, index: &mut usize, v_size: u8) -> u64 {
            let number = self.get_fragment(*index, v_size);
            *index += 1;
            number
        }
        /// As `init_bits`, of a fragment.
        ///
        /// ```
        /// use bitm_proved::BitAccess;
        /// let mut words = [0u64; 2];
        /// words.init_fragment(1, 0xA, 60); // from bit 60 on
        /// assert_eq!(words, [0xA << 60, 0]);
        /// ```
        #[track_caller]
        fn init_fragment(&mut self, index: usize, v: u64, v_size: u8) {
            self.init_bits(begin_of(index, v_size), v, v_size)
        }
        /// As `init_fragment`.
        ///
        /// ```
        /// use bitm_proved::BitAccess;
        /// let (mut words, mut index) = ([0u64], 0);
        /// for number in [1, 2, 3] {
        ///     words.init_successive_fragment(&mut index, number, 4);
        /// }
        /// assert_eq!((words, index), ([0x321], 3));
        /// ```
        #[track_caller]
        fn init_successive_fragment(&mut self, index: &mut usize, v: u64, v_size: u8) {
            self.init_fragment(*index, v, v_size);
            *index += 1;
        }
        /// As `init_fragment`.
        ///
        /// # Safety
        /// It is inside. (This is tested all the same.)
        ///
        /// ```
        /// use bitm_proved::BitAccess;
        /// let mut words = [0u64];
        /// // SAFETY: there are 16 fragments.
        /// unsafe { words.init_fragment_unchecked(3, 0xA, 4) };
        /// assert_eq!(words, [0xA000]);
        /// ```
        #[track_caller]
        unsafe fn init_fragment_unchecked(&mut self, index: usize, v: u64, v_size: u8) {
            self.init_fragment(index, v, v_size)
        }
        /// Replaces number `index` of an array of numbers of `v_size` bits. Tested, not proved.
        ///
        /// ```
        /// use bitm_proved::BitAccess;
        /// let mut words = [0xABCDu64];
        /// words.set_fragment(1, 0, 4);
        /// assert_eq!(words, [0xAB0D]);
        /// ```
        #[track_caller]
        fn set_fragment(&mut self, index: usize, v: u64, v_size: u8) {
            self.set_bits(begin_of(index, v_size), v, v_size)
        }
        /// As `set_fragment`.
        ///
        /// # Safety
        /// It is inside. (This is tested all the same.)
        ///
        /// ```
        /// use bitm_proved::BitAccess;
        /// let mut words = [0xABCDu64];
        /// // SAFETY: there are 16 fragments.
        /// unsafe { words.set_fragment_unchecked(2, 0, 4) };
        /// assert_eq!(words, [0xA0CD]);
        /// ```
        #[track_caller]
        unsafe fn set_fragment_unchecked(&mut self, index: usize, v: u64, v_size: u8) {
            self.set_fragment(index, v, v_size)
        }
        /// As `set_fragment`.
        ///
        /// ```
        /// use bitm_proved::BitAccess;
        /// let (mut words, mut index) = ([0xABCDu64], 1);
        /// words.set_successive_fragment(&mut index, 5, 4);
        /// words.set_successive_fragment(&mut index, 6, 4);
        /// assert_eq!((words, index), ([0xA65D], 3));
        /// ```
        #[track_caller]
        fn set_successive_fragment(&mut self, index: &mut usize, v: u64, v_size: u8) {
            self.set_fragment(*index, v, v_size);
            *index += 1;
        }
        /// As `xor_bits`, from the begin of a fragment on.
        ///
        /// ```
        /// use bitm_proved::BitAccess;
        /// let mut words = [0b1100_1100u64];
        /// words.xor_fragment(1, 0b0110, 4);
        /// assert_eq!(words, [0b1010_1100]);
        /// ```
        #[track_caller]
        fn xor_fragment(&mut self, index: usize, v: u64, v_size: u8) {
            self.xor_bits(begin_of(index, v_size), v, v_size)
        }
        /// As `xor_fragment`.
        ///
        /// ```
        /// use bitm_proved::BitAccess;
        /// let (mut words, mut index) = ([0xFFu64], 0);
        /// words.xor_successive_fragment(&mut index, 0x1, 4);
        /// words.xor_successive_fragment(&mut index, 0x8, 4);
        /// assert_eq!((words, index), ([0x7E], 2));
        /// ```
        #[track_caller]
        fn xor_successive_fragment(&mut self, index: &mut usize, v: u64, v_size: u8) {
            self.xor_fragment(*index, v, v_size);
            *index += 1;
        }
        /// Swaps two fragments. Tested, not proved.
        ///
        /// ```
        /// use bitm_proved::BitAccess;
        /// let mut words = [0xABCDu64];
        /// words.swap_fragments(0, 3, 4);
        /// assert_eq!(words, [0xDBCA]);
        /// ```
        #[track_caller]
        fn swap_fragments(&mut self, index1: usize, index2: usize, v_size: u8) {
            let first = self.get_fragment(index1, v_size);
            let second = self.get_fragment(index2, v_size);
            self.set_fragment(index1, second, v_size);
            self.set_fragment(index2, first, v_size);
        }
        /// As `conditionally_change_bits`, of a fragment.
        ///
        /// ```
        /// use bitm_proved::BitAccess;
        /// let mut counts = [0xF2u64]; // two counters of 4 bits that stay at 15
        /// for index in [0, 1] {
        ///     counts.conditionally_change_fragment(|count| (count < 15).then_some(count + 1), index, 4);
        /// }
        /// assert_eq!(counts, [0xF3]);
        /// ```
        #[track_caller]
        fn conditionally_change_fragment<NewValue>(&mut self, new_value: NewValue, index: usize, v_size: u8) -> u64
        where
            NewValue: FnOnce(u64) -> Option<u64>,
        {
            self.conditionally_change_bits(new_value, begin_of(index, v_size), v_size)
        }
        /// As `conditionally_copy_bits`, of a fragment.
        ///
        /// ```
        /// use bitm_proved::BitAccess;
        /// let mut least = [0x35u64];
        /// for index in [0, 1] {
        ///     least.conditionally_copy_fragment(&[0x44], |old, new| new < old, index, 4);
        /// }
        /// assert_eq!(least, [0x34]);
        /// ```
        #[track_caller]
        fn conditionally_copy_fragment<Pred>(&mut self, src: &Self, predicate: Pred, index: usize, v_size: u8)
        where
            Pred: FnOnce(u64, u64) -> bool,
        {
            self.conditionally_copy_bits(src, predicate, begin_of(index, v_size), v_size)
        }
    };
}
pub(super) use fragments;
