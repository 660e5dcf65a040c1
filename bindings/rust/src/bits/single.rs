//! The methods of `BitAccess` for single bits.

macro_rules! single_bits {
    () => {
        /// The bit at a position. Tested, not proved.
        ///
        /// ```
        /// use bitm_proved::BitAccess;
        /// let words = [0b10u64];
        /// assert!(words.get_bit(1) && !words.get_bit(0));
        /// ```
        fn get_bit(&self, bit_nr: usize) -> bool;
        /// As `get_bit`.
        ///
        /// # Safety
        /// It is inside. (This is tested all the same.)
        ///
        /// ```
        /// use bitm_proved::BitAccess;
        /// // SAFETY: there are 64 bits.
        /// assert!(unsafe { [0b10u64].get_bit_unchecked(1) });
        /// ```
        unsafe fn get_bit_unchecked(&self, bit_nr: usize) -> bool;
        /// The bit at a position; `None` exactly where there is none. Tested, not proved.
        ///
        /// ```
        /// use bitm_proved::BitAccess;
        /// let words = [0b10u64];
        /// assert_eq!((words.try_get_bit(1), words.try_get_bit(64)), (Some(true), None));
        /// ```
        fn try_get_bit(&self, bit_nr: usize) -> Option<bool>;
        /// As `get_bit`.
        ///
        /// ```
        /// use bitm_proved::BitAccess;
        /// let (words, mut at) = ([0b10u64], 0);
        /// assert!(!words.get_successive_bit(&mut at) && words.get_successive_bit(&mut at));
        /// assert_eq!(at, 2);
        /// ```
        #[track_caller]
        fn get_successive_bit(&self, bit_nr: &mut usize) -> bool {
            let bit = self.get_bit(*bit_nr);
            *bit_nr += 1;
            bit
        }
        /// Prefetches the word of a bit; any number will do. Tested, not proved.
        ///
        /// ```
        /// use bitm_proved::BitAccess;
        /// let words = vec![u64::MAX; 1000];
        /// words.prefetch_bit(50_000); // while other work is done
        /// assert!(words.get_bit(50_000));
        /// ```
        fn prefetch_bit(&self, _bit_nr: usize) {}
        /// Makes the bit at a position the value. Tested, not proved.
        ///
        /// ```
        /// use bitm_proved::BitAccess;
        /// let mut words = [0b0011u64];
        /// words.set_bit_to(3, true);
        /// words.set_bit_to(0, false);
        /// assert_eq!(words, [0b1010]);
        /// ```
        fn set_bit_to(&mut self, bit_nr: usize, value: bool);
        /// As `set_bit_to`.
        ///
        /// # Safety
        /// It is inside. (This is tested all the same.)
        ///
        /// ```
        /// use bitm_proved::BitAccess;
        /// let mut words = [0b0011u64];
        /// // SAFETY: there are 64 bits.
        /// unsafe { words.set_bit_to_unchecked(0, false) };
        /// assert_eq!(words, [0b0010]);
        /// ```
        unsafe fn set_bit_to_unchecked(&mut self, bit_nr: usize, value: bool);
        /// As `set_bit_to`.
        ///
        /// ```
        /// use bitm_proved::BitAccess;
        /// let (mut words, mut at) = ([0u64], 0);
        /// for value in [true, false, true] {
        ///     words.set_successive_bit_to(&mut at, value);
        /// }
        /// assert_eq!((words, at), ([0b101], 3));
        /// ```
        #[track_caller]
        fn set_successive_bit_to(&mut self, bit_nr: &mut usize, value: bool) {
            self.set_bit_to(*bit_nr, value);
            *bit_nr += 1;
        }
        /// As `set_bit_to`.
        ///
        /// # Safety
        /// It is inside. (This is tested all the same.)
        ///
        /// ```
        /// use bitm_proved::BitAccess;
        /// let (mut words, mut at) = ([0u64], 4);
        /// // SAFETY: there are 64 bits.
        /// unsafe { words.set_successive_bit_to_unchecked(&mut at, true) };
        /// assert_eq!((words, at), ([0b1_0000], 5));
        /// ```
        #[track_caller]
        unsafe fn set_successive_bit_to_unchecked(&mut self, bit_nr: &mut usize, value: bool) {
            self.set_successive_bit_to(bit_nr, value)
        }
        /// As `set_bit_to`, of a bit that is 0 or the value.
        ///
        /// ```
        /// use bitm_proved::BitAccess;
        /// let mut words = [0u64]; // all bits are 0 still
        /// words.init_bit(2, true);
        /// words.init_bit(3, false);
        /// assert_eq!(words, [0b0100]);
        /// ```
        fn init_bit(&mut self, bit_nr: usize, value: bool);
        /// As `init_bit`.
        ///
        /// # Safety
        /// It is inside. (This is tested all the same.)
        ///
        /// ```
        /// use bitm_proved::BitAccess;
        /// let mut words = [0u64];
        /// // SAFETY: there are 64 bits.
        /// unsafe { words.init_bit_unchecked(63, true) };
        /// assert_eq!(words, [1 << 63]);
        /// ```
        unsafe fn init_bit_unchecked(&mut self, bit_nr: usize, value: bool);
        /// As `init_bit`.
        ///
        /// ```
        /// use bitm_proved::BitAccess;
        /// let (mut words, mut at) = ([0u64], 0);
        /// for value in [true, true, false, true] {
        ///     words.init_successive_bit(&mut at, value);
        /// }
        /// assert_eq!((words, at), ([0b1011], 4));
        /// ```
        #[track_caller]
        fn init_successive_bit(&mut self, bit_nr: &mut usize, value: bool) {
            self.init_bit(*bit_nr, value);
            *bit_nr += 1;
        }
        /// As `init_bit`.
        ///
        /// # Safety
        /// It is inside. (This is tested all the same.)
        ///
        /// ```
        /// use bitm_proved::BitAccess;
        /// let (mut words, mut at) = ([0u64; 2], 64);
        /// // SAFETY: there are 128 bits.
        /// unsafe { words.init_successive_bit_unchecked(&mut at, true) };
        /// assert_eq!((words, at), ([0, 1], 65));
        /// ```
        #[track_caller]
        unsafe fn init_successive_bit_unchecked(&mut self, bit_nr: &mut usize, value: bool) {
            self.init_successive_bit(bit_nr, value)
        }
        /// Makes the bit at a position 1. Tested, not proved.
        ///
        /// ```
        /// use bitm_proved::BitAccess;
        /// let mut words = [0u64; 2];
        /// words.set_bit(1);
        /// words.set_bit(64);
        /// assert_eq!(words, [0b10, 1]);
        /// ```
        fn set_bit(&mut self, bit_nr: usize);
        /// As `set_bit`.
        ///
        /// # Safety
        /// It is inside. (This is tested all the same.)
        ///
        /// ```
        /// use bitm_proved::BitAccess;
        /// let mut words = [0u64];
        /// // SAFETY: there are 64 bits.
        /// unsafe { words.set_bit_unchecked(5) };
        /// assert_eq!(words, [1 << 5]);
        /// ```
        unsafe fn set_bit_unchecked(&mut self, bit_nr: usize);
        /// Makes the bit at a position 0. Tested, not proved.
        ///
        /// ```
        /// use bitm_proved::BitAccess;
        /// let mut words = [0b1111u64];
        /// words.clear_bit(1);
        /// assert_eq!(words, [0b1101]);
        /// ```
        fn clear_bit(&mut self, bit_nr: usize);
        /// As `clear_bit`.
        ///
        /// # Safety
        /// It is inside. (This is tested all the same.)
        ///
        /// ```
        /// use bitm_proved::BitAccess;
        /// let mut words = [0b1111u64];
        /// // SAFETY: there are 64 bits.
        /// unsafe { words.clear_bit_unchecked(3) };
        /// assert_eq!(words, [0b0111]);
        /// ```
        unsafe fn clear_bit_unchecked(&mut self, bit_nr: usize);
    };
}
pub(super) use single_bits;
