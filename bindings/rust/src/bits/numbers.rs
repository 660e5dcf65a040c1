//! The methods of `BitAccess` for numbers of a few bits, wherever they begin.

macro_rules! numbers {
    () => {
        /// The bits of a range, unmasked. Tested, not proved.
        ///
        /// ```
        /// use bitm_proved::BitAccess;
        /// assert_eq!([0xABCDu64].get_bits_unmasked(4, 8), 0xABC); // up to the end of the word
        /// ```
        #[track_caller]
        fn get_bits_unmasked(&self, begin: usize, len: u8) -> u64 {
            inside(self.try_get_bits_unmasked(begin, len), begin, len)
        }
        /// The number that the bits of a range are, lowest first. Tested, not proved.
        ///
        /// ```
        /// use bitm_proved::BitAccess;
        /// assert_eq!([0xABCDu64].get_bits(4, 8), 0xBC);
        /// assert_eq!([1 << 63, 0b01u64].get_bits(63, 3), 0b011); // of two words
        /// ```
        #[track_caller]
        fn get_bits(&self, begin: usize, len: u8) -> u64 {
            inside(self.try_get_bits(begin, len), begin, len)
        }
        /// As `get_bits_unmasked`; `None` exactly where the range is not inside.
        ///
        /// ```
        /// use bitm_proved::BitAccess;
        /// let words = [0xABCDu64];
        /// assert_eq!((words.try_get_bits_unmasked(8, 4), words.try_get_bits_unmasked(61, 4)), (Some(0xAB), None));
        /// ```
        fn try_get_bits_unmasked(&self, begin: usize, len: u8) -> Option<u64>;
        /// As `get_bits`; `None` exactly where the range is not inside.
        ///
        /// ```
        /// use bitm_proved::BitAccess;
        /// let words = [0xABCDu64];
        /// assert_eq!((words.try_get_bits(8, 4), words.try_get_bits(61, 4)), (Some(0xB), None));
        /// ```
        fn try_get_bits(&self, begin: usize, len: u8) -> Option<u64> {
            Some(self.try_get_bits_unmasked(begin, len)? & n_lowest_bits_0_64(len))
        }
        /// As `get_bits_unmasked`.
        ///
        /// # Safety
        /// It is inside. (This is tested all the same.)
        ///
        /// ```
        /// use bitm_proved::BitAccess;
        /// // SAFETY: there are 64 bits.
        /// assert_eq!(unsafe { [0xABCDu64].get_bits_unmasked_unchecked(8, 4) }, 0xAB);
        /// ```
        unsafe fn get_bits_unmasked_unchecked(&self, begin: usize, len: u8) -> u64;
        /// As `get_bits`.
        ///
        /// # Safety
        /// It is inside. (This is tested all the same.)
        ///
        /// ```
        /// use bitm_proved::BitAccess;
        /// // SAFETY: there are 64 bits.
        /// assert_eq!(unsafe { [0xABCDu64].get_bits_unchecked(8, 4) }, 0xB);
        /// ```
        #[track_caller]
        unsafe fn get_bits_unchecked(&self, begin: usize, len: u8) -> u64 {
            self.get_bits(begin, len)
        }
        /// As `get_bits`.
        ///
        /// ```
        /// use bitm_proved::BitAccess;
        /// let (words, mut at) = ([0xABCDu64], 0);
        /// assert_eq!([words.get_successive_bits(&mut at, 4), words.get_successive_bits(&mut at, 8)], [0xD, 0xBC]);
        /// assert_eq!(at, 12);
        /// ```
        #[track_caller]
        fn get_successive_bits(&self, begin: &mut usize, len: u8) -> u64 {
            let number = self.get_bits(*begin, len);
            *begin += len as usize;
            number
        }
        /// Makes the bits of a range, which are 0 or the number, the number. Tested, not proved.
        ///
        /// ```
        /// use bitm_proved::BitAccess;
        /// let mut words = [0u64; 2];
        /// words.init_bits(60, 0xAB, 8);
        /// assert_eq!(words, [0xB << 60, 0xA]);
        /// ```
        fn init_bits(&mut self, begin: usize, v: u64, len: u8);
        /// As `init_bits`.
        ///
        /// ```
        /// use bitm_proved::BitAccess;
        /// let (mut words, mut at) = ([0u64], 0);
        /// words.init_successive_bits(&mut at, 0x12, 8);
        /// words.init_successive_bits(&mut at, 0x34, 8);
        /// assert_eq!((words, at), ([0x3412], 16));
        /// ```
        #[track_caller]
        fn init_successive_bits(&mut self, begin: &mut usize, v: u64, len: u8) {
            self.init_bits(*begin, v, len);
            *begin += len as usize;
        }
        /// As `init_bits`.
        ///
        /// # Safety
        /// It is inside. (This is tested all the same.)
        ///
        /// ```
        /// use bitm_proved::BitAccess;
        /// let mut words = [0u64];
        /// // SAFETY: there are 64 bits.
        /// unsafe { words.init_bits_unchecked(8, 0xAB, 8) };
        /// assert_eq!(words, [0xAB00]);
        /// ```
        unsafe fn init_bits_unchecked(&mut self, begin: usize, v: u64, len: u8);
        /// Replaces the bits of a range by the lowest bits of a number. Tested, not proved.
        ///
        /// ```
        /// use bitm_proved::BitAccess;
        /// let mut words = [0xFFFFu64];
        /// words.set_bits(4, 0xAB, 8);
        /// assert_eq!(words, [0xFABF]);
        /// ```
        fn set_bits(&mut self, begin: usize, v: u64, len: u8);
        /// As `set_bits`.
        ///
        /// ```
        /// use bitm_proved::BitAccess;
        /// let (mut words, mut at) = ([0xFFFFu64], 4);
        /// words.set_successive_bits(&mut at, 0xA, 4);
        /// words.set_successive_bits(&mut at, 0xB, 4);
        /// assert_eq!((words, at), ([0xFBAF], 12));
        /// ```
        #[track_caller]
        fn set_successive_bits(&mut self, begin: &mut usize, v: u64, len: u8) {
            self.set_bits(*begin, v, len);
            *begin += len as usize;
        }
        /// As `set_bits`; `None`, and nothing is written, where the range is not inside.
        ///
        /// ```
        /// use bitm_proved::BitAccess;
        /// let mut words = [0u64];
        /// assert_eq!((words.try_set_bits(4, 0xA, 4), words.try_set_bits(61, 0xA, 4)), (Some(()), None));
        /// assert_eq!(words, [0xA0]);
        /// ```
        fn try_set_bits(&mut self, begin: usize, v: u64, len: u8) -> Option<()> {
            self.try_get_bits(begin, len)?;
            self.set_bits(begin, v, len);
            Some(())
        }
        /// As `set_bits`.
        ///
        /// # Safety
        /// It is inside. (This is tested all the same.)
        ///
        /// ```
        /// use bitm_proved::BitAccess;
        /// let mut words = [0xFFu64];
        /// // SAFETY: there are 64 bits.
        /// unsafe { words.set_bits_unchecked(0, 0xA, 4) };
        /// assert_eq!(words, [0xFA]);
        /// ```
        unsafe fn set_bits_unchecked(&mut self, begin: usize, v: u64, len: u8);
        /// Flips the bits, unmasked, at which the number has 1 bits. Tested, not proved.
        ///
        /// ```
        /// use bitm_proved::BitAccess;
        /// let mut words = [0b1100_0000u64];
        /// words.xor_bits(4, 0b1010, 4);
        /// assert_eq!(words, [0b0110_0000]);
        /// ```
        fn xor_bits(&mut self, begin: usize, v: u64, len: u8);
        /// As `xor_bits`.
        ///
        /// ```
        /// use bitm_proved::BitAccess;
        /// let (mut words, mut at) = ([0b1100u64], 0);
        /// words.xor_successive_bits(&mut at, 0b01, 2);
        /// words.xor_successive_bits(&mut at, 0b01, 2);
        /// assert_eq!((words, at), ([0b1001], 4));
        /// ```
        #[track_caller]
        fn xor_successive_bits(&mut self, begin: &mut usize, v: u64, len: u8) {
            self.xor_bits(*begin, v, len);
            *begin += len as usize;
        }
        /// Calls a closure with the number of a range, writes the number that it returns, if any, and returns the old
        /// one. Tested, not proved.
        ///
        /// ```
        /// use bitm_proved::BitAccess;
        /// let mut words = [0xABCDu64];
        /// assert_eq!(words.conditionally_change_bits(|old| Some(old + 1), 4, 4), 0xC);
        /// assert_eq!(words.conditionally_change_bits(|old| (old < 9).then_some(9), 8, 4), 0xB);
        /// assert_eq!(words, [0xABDD]);
        /// ```
        #[track_caller]
        fn conditionally_change_bits<NewValue>(&mut self, new_value: NewValue, begin: usize, v_size: u8) -> u64
        where
            NewValue: FnOnce(u64) -> Option<u64>,
        {
            let old = self.get_bits(begin, v_size);
            if let Some(new) = new_value(old) {
                self.set_bits(begin, new, v_size);
            }
            old
        }
        /// Copies the numbers of a range where a closure, given the old number and the one of `src`, says so. Tested,
        /// not proved.
        ///
        /// ```
        /// use bitm_proved::BitAccess;
        /// let mut greatest = [0x35u64];
        /// for begin in [0, 4] {
        ///     greatest.conditionally_copy_bits(&[0x44], |old, new| old < new, begin, 4);
        /// }
        /// assert_eq!(greatest, [0x45]);
        /// ```
        #[track_caller]
        fn conditionally_copy_bits<Pred>(&mut self, src: &Self, predicate: Pred, begin: usize, v_size: u8)
        where
            Pred: FnOnce(u64, u64) -> bool,
        {
            let new = src.get_bits(begin, v_size);
            self.conditionally_change_bits(|old| predicate(old, new).then_some(new), begin, v_size);
        }
    };
}
pub(super) use numbers;
