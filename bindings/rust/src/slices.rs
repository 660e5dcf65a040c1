//! The bits of slices of words: what is a few instructions is Rust, the rest is one proved call each.
use crate::bits::BitAccess;
use crate::inline;
use crate::iterators::{BitIterator, BitOnesIterator, BitZerosIterator};
use crate::sys::{memory, reads};
use core::ops::Range;

#[cold]
#[track_caller]
fn no_bit(position: usize, words: usize) -> ! {
    panic!("there is no bit {position} of {} bits", 64 * words)
}

#[cold]
#[track_caller]
fn no_range(begin: usize, len: u8, words: usize) -> ! {
    let bits = 64 * words;
    panic!("{len} bits from position {begin} on are not all inside: there are {bits}, and at most 64 are taken")
}

#[cold]
#[track_caller]
fn no_one(from: usize, side: &str) -> ! {
    panic!("there is no 1 bit at or {side} position {from}")
}

impl BitAccess for [u64] {
    #[inline(always)]
    #[track_caller]
    fn get_bit(&self, bit_nr: usize) -> bool {
        match inline::bit(self, bit_nr) {
            Some(bit) => bit,
            None => no_bit(bit_nr, self.len()),
        }
    }
    #[inline(always)]
    #[track_caller]
    unsafe fn get_bit_unchecked(&self, bit_nr: usize) -> bool {
        self.get_bit(bit_nr)
    }
    #[inline(always)]
    fn try_get_bit(&self, bit_nr: usize) -> Option<bool> {
        inline::bit(self, bit_nr)
    }
    #[inline(always)]
    fn prefetch_bit(&self, bit_nr: usize) {
        memory::prefetch(self, bit_nr / 64)
    }
    #[inline(always)]
    #[track_caller]
    fn set_bit_to(&mut self, bit_nr: usize, value: bool) {
        let words = self.len();
        if inline::put_bit(self, bit_nr, value).is_none() {
            no_bit(bit_nr, words)
        }
    }
    #[inline(always)]
    #[track_caller]
    unsafe fn set_bit_to_unchecked(&mut self, bit_nr: usize, value: bool) {
        self.set_bit_to(bit_nr, value)
    }
    #[inline(always)]
    #[track_caller]
    fn init_bit(&mut self, bit_nr: usize, value: bool) {
        self.init_bits(bit_nr, value.into(), 1)
    }
    #[inline(always)]
    #[track_caller]
    unsafe fn init_bit_unchecked(&mut self, bit_nr: usize, value: bool) {
        self.init_bit(bit_nr, value)
    }
    #[inline(always)]
    #[track_caller]
    fn set_bit(&mut self, bit_nr: usize) {
        self.set_bit_to(bit_nr, true)
    }
    #[inline(always)]
    #[track_caller]
    unsafe fn set_bit_unchecked(&mut self, bit_nr: usize) {
        self.set_bit(bit_nr)
    }
    #[inline(always)]
    #[track_caller]
    fn clear_bit(&mut self, bit_nr: usize) {
        self.set_bit_to(bit_nr, false)
    }
    #[inline(always)]
    #[track_caller]
    unsafe fn clear_bit_unchecked(&mut self, bit_nr: usize) {
        self.clear_bit(bit_nr)
    }
    #[inline(always)]
    #[track_caller]
    fn get_bits_unmasked(&self, begin: usize, len: u8) -> u64 {
        match inline::read_unmasked(self, begin, len) {
            Some(bits) => bits,
            None => no_range(begin, len, self.len()),
        }
    }
    #[inline(always)]
    #[track_caller]
    fn get_bits(&self, begin: usize, len: u8) -> u64 {
        match inline::read(self, begin, len) {
            Some(number) => number,
            None => no_range(begin, len, self.len()),
        }
    }
    #[inline(always)]
    fn try_get_bits_unmasked(&self, begin: usize, len: u8) -> Option<u64> {
        inline::read_unmasked(self, begin, len)
    }
    #[inline(always)]
    fn try_get_bits(&self, begin: usize, len: u8) -> Option<u64> {
        inline::read(self, begin, len)
    }
    #[inline(always)]
    #[track_caller]
    unsafe fn get_bits_unmasked_unchecked(&self, begin: usize, len: u8) -> u64 {
        self.get_bits_unmasked(begin, len)
    }
    #[inline(always)]
    #[track_caller]
    fn init_bits(&mut self, begin: usize, v: u64, len: u8) {
        let words = self.len();
        if inline::init(self, begin, v, len).is_none() {
            no_range(begin, len, words)
        }
    }
    #[inline(always)]
    #[track_caller]
    unsafe fn init_bits_unchecked(&mut self, begin: usize, v: u64, len: u8) {
        self.init_bits(begin, v, len)
    }
    #[inline(always)]
    #[track_caller]
    fn set_bits(&mut self, begin: usize, v: u64, len: u8) {
        let words = self.len();
        if inline::write(self, begin, v, len).is_none() {
            no_range(begin, len, words)
        }
    }
    #[inline(always)]
    fn try_set_bits(&mut self, begin: usize, v: u64, len: u8) -> Option<()> {
        inline::write(self, begin, v, len)
    }
    #[inline(always)]
    #[track_caller]
    unsafe fn set_bits_unchecked(&mut self, begin: usize, v: u64, len: u8) {
        self.set_bits(begin, v, len)
    }
    #[inline(always)]
    #[track_caller]
    fn xor_bits(&mut self, begin: usize, v: u64, len: u8) {
        let words = self.len();
        if inline::flip(self, begin, v, len).is_none() {
            no_range(begin, len, words)
        }
    }
    fn count_bit_zeros(&self) -> usize {
        reads::count(self, 64 * self.len(), false)
    }
    fn count_bit_ones(&self) -> usize {
        reads::count(self, 64 * self.len(), true)
    }
    #[inline]
    fn bit_ones(&self) -> BitOnesIterator<'_> {
        BitOnesIterator::new(self)
    }
    #[inline]
    fn bit_zeros(&self) -> BitZerosIterator<'_> {
        BitZerosIterator::new(self)
    }
    #[inline]
    fn bit_iter(&self) -> BitIterator<'_> {
        BitIterator::new(self)
    }
    #[inline]
    #[track_caller]
    fn bit_in_range_iter(&self, bit_range: Range<usize>) -> BitIterator<'_> {
        BitIterator::with_range(self, bit_range)
    }
    #[inline]
    #[track_caller]
    unsafe fn bit_in_unchecked_range_iter(&self, bit_range: Range<usize>) -> BitIterator<'_> {
        BitIterator::with_range(self, bit_range)
    }
    fn trailing_zero_bits(&self) -> usize {
        self.find_bit_one(0).unwrap_or(64 * self.len())
    }
    #[track_caller]
    unsafe fn find_bit_one_unchecked(&self, start_index: usize) -> usize {
        match self.find_bit_one(start_index) {
            Some(position) => position,
            None => no_one(start_index, "after"),
        }
    }
    fn find_bit_one(&self, start_index: usize) -> Option<usize> {
        reads::next(self, 64 * self.len(), true, start_index)
    }
    #[track_caller]
    unsafe fn rfind_bit_one_unchecked(&self, start_index: usize) -> usize {
        match reads::previous(self, 64 * self.len(), true, start_index) {
            Some(position) => position,
            None => no_one(start_index, "before"),
        }
    }
}
