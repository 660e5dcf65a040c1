//! Each item of the original's interface that has to do with words and bits: its name, its type, and what it does.
#![allow(clippy::type_complexity, clippy::useless_vec)]
use bitm_proved as bitm;
use bitm_proved::{BitAccess, BitBIterator, BitIterator, BitOnesIterator, BitVec, BitZerosIterator};
use std::iter::FusedIterator;
use std::ops::Range;

#[test]
fn functions_at_the_root() {
    let _: fn(usize, usize) -> usize = bitm::ceiling_div;
    let _: [fn(u8) -> u64; 3] = [bitm::n_lowest_bits, bitm::n_lowest_bits_1_64, bitm::n_lowest_bits_0_64];
    let _: fn(u64) -> u8 = bitm::bits_to_store::<u64>;
    let _: fn(u8) -> u8 = bitm::bits_to_store::<u8>;
    let _: unsafe fn(*const u8, usize) -> u64 = bitm::get_bits57;
    let _: unsafe fn(*mut u8, usize, u64) = bitm::init_bits57;
    let _: unsafe fn(*mut u8, usize, u64, u64) = bitm::set_bits57;
    let _: unsafe fn(*const u8, usize) -> u32 = bitm::get_bits25;
    let _: unsafe fn(*mut u8, usize, u32) = bitm::init_bits25;
    let _: unsafe fn(*mut u8, usize, u32, u32) = bitm::set_bits25;
    const MASKS: [u64; 3] = [bitm::n_lowest_bits(63), bitm::n_lowest_bits_1_64(64), bitm::n_lowest_bits_0_64(64)];
    const WORDS: usize = bitm::ceiling_div(129, 64);
    assert_eq!((MASKS, WORDS), ([u64::MAX >> 1, u64::MAX, u64::MAX], 3));
}

fn walks<'a, I: ExactSizeIterator<Item = usize> + FusedIterator + Clone + 'a>(all: I) -> Vec<usize> {
    let len = all.len();
    let list: Vec<_> = all.collect();
    assert_eq!(list.len(), len);
    list
}

#[test]
fn iterators() {
    let words = [0b101, 0];
    let _: fn(&'static [u64]) -> BitBIterator<'static, true> = BitBIterator::<true>::new;
    let ones: BitOnesIterator<'_> = BitOnesIterator::new(&words);
    let zeros: BitZerosIterator<'_> = BitBIterator::<false>::new(&words);
    assert_eq!(walks(ones), [0, 2]);
    assert_eq!(walks(zeros).len(), 126);
    let _: fn(&'static [u64]) -> BitIterator<'static> = BitIterator::new;
    let _: fn(&'static [u64], Range<usize>) -> BitIterator<'static> = BitIterator::with_range;
    let _: unsafe fn(&'static [u64], Range<usize>) -> BitIterator<'static> = BitIterator::with_range_unchecked;
    let _: for<'a> fn(&'a BitIterator<'static>) -> &'a Range<usize> = BitIterator::bit_range;
    let _: for<'a> fn(&'a BitIterator<'static>) -> &'static [u64] = BitIterator::bit_vec;
    fn both<T: DoubleEndedIterator<Item = bool> + ExactSizeIterator + FusedIterator>(_: &T) {}
    both(&BitIterator::new(&words));
}

#[test]
fn bit_access_of_single_bits() {
    let _: [fn(&[u64], usize) -> bool; 1] = [<[u64]>::get_bit];
    let _: [unsafe fn(&[u64], usize) -> bool; 1] = [<[u64]>::get_bit_unchecked];
    let _: fn(&[u64], usize) -> Option<bool> = <[u64]>::try_get_bit;
    let _: fn(&[u64], &mut usize) -> bool = <[u64]>::get_successive_bit;
    let _: fn(&[u64], usize) = <[u64]>::prefetch_bit;
    let _: fn(&[u64], usize, u8) = <[u64]>::prefetch_fragment;
    let _: [fn(&mut [u64], usize, bool); 2] = [<[u64]>::set_bit_to, <[u64]>::init_bit];
    let _: [unsafe fn(&mut [u64], usize, bool); 2] = [<[u64]>::set_bit_to_unchecked, <[u64]>::init_bit_unchecked];
    let _: [fn(&mut [u64], &mut usize, bool); 2] = [<[u64]>::set_successive_bit_to, <[u64]>::init_successive_bit];
    let _: [unsafe fn(&mut [u64], &mut usize, bool); 2] =
        [<[u64]>::set_successive_bit_to_unchecked, <[u64]>::init_successive_bit_unchecked];
    let _: [fn(&mut [u64], usize); 2] = [<[u64]>::set_bit, <[u64]>::clear_bit];
    let _: [unsafe fn(&mut [u64], usize); 2] = [<[u64]>::set_bit_unchecked, <[u64]>::clear_bit_unchecked];
}

#[test]
fn bit_access_of_numbers_and_fragments() {
    let _: [fn(&[u64], usize, u8) -> u64; 4] =
        [<[u64]>::get_bits_unmasked, <[u64]>::get_bits, <[u64]>::get_fragment_unmasked, <[u64]>::get_fragment];
    let _: [fn(&[u64], usize, u8) -> Option<u64>; 4] = [
        <[u64]>::try_get_bits_unmasked,
        <[u64]>::try_get_bits,
        <[u64]>::try_get_fragment_unmasked,
        <[u64]>::try_get_fragment,
    ];
    let _: [unsafe fn(&[u64], usize, u8) -> u64; 4] = [
        <[u64]>::get_bits_unmasked_unchecked,
        <[u64]>::get_bits_unchecked,
        <[u64]>::get_fragment_unmasked_unchecked,
        <[u64]>::get_fragment_unchecked,
    ];
    let _: [fn(&[u64], &mut usize, u8) -> u64; 2] = [<[u64]>::get_successive_bits, <[u64]>::get_successive_fragment];
    let _: [fn(&mut [u64], usize, u64, u8); 6] = [
        <[u64]>::init_bits,
        <[u64]>::set_bits,
        <[u64]>::xor_bits,
        <[u64]>::init_fragment,
        <[u64]>::set_fragment,
        <[u64]>::xor_fragment,
    ];
    let _: [unsafe fn(&mut [u64], usize, u64, u8); 4] = [
        <[u64]>::init_bits_unchecked,
        <[u64]>::set_bits_unchecked,
        <[u64]>::init_fragment_unchecked,
        <[u64]>::set_fragment_unchecked,
    ];
    let _: [fn(&mut [u64], &mut usize, u64, u8); 6] = [
        <[u64]>::init_successive_bits,
        <[u64]>::set_successive_bits,
        <[u64]>::xor_successive_bits,
        <[u64]>::init_successive_fragment,
        <[u64]>::set_successive_fragment,
        <[u64]>::xor_successive_fragment,
    ];
    let _: fn(&mut [u64], usize, usize, u8) = <[u64]>::swap_fragments;
    type New = fn(u64) -> Option<u64>;
    type Pred = fn(u64, u64) -> bool;
    let _: [fn(&mut [u64], New, usize, u8) -> u64; 2] =
        [<[u64]>::conditionally_change_bits::<New>, <[u64]>::conditionally_change_fragment::<New>];
    let _: [fn(&mut [u64], &[u64], Pred, usize, u8); 2] =
        [<[u64]>::conditionally_copy_bits::<Pred>, <[u64]>::conditionally_copy_fragment::<Pred>];
}

#[test]
fn bit_access_of_all_bits() {
    let _: [fn(&[u64]) -> usize; 3] = [<[u64]>::count_bit_zeros, <[u64]>::count_bit_ones, <[u64]>::trailing_zero_bits];
    let _: for<'a> fn(&'a [u64]) -> BitOnesIterator<'a> = <[u64]>::bit_ones;
    let _: for<'a> fn(&'a [u64]) -> BitZerosIterator<'a> = <[u64]>::bit_zeros;
    let _: for<'a> fn(&'a [u64]) -> BitIterator<'a> = <[u64]>::bit_iter;
    let _: for<'a> fn(&'a [u64], Range<usize>) -> BitIterator<'a> = <[u64]>::bit_in_range_iter;
    let _: for<'a> unsafe fn(&'a [u64], Range<usize>) -> BitIterator<'a> = <[u64]>::bit_in_unchecked_range_iter;
    let _: [unsafe fn(&[u64], usize) -> usize; 2] = [<[u64]>::find_bit_one_unchecked, <[u64]>::rfind_bit_one_unchecked];
    let _: fn(&[u64], usize) -> Option<usize> = <[u64]>::find_bit_one;
    // As in the original, an array, a vector and a box reach the methods of their slice.
    assert!([1u64].get_bit(0) && vec![1u64].get_bit(0) && Box::<[u64]>::from([1]).get_bit(0));
}

/// A user's type with exactly the 29 methods that the original requires.
struct Own(Vec<u64>);

#[rustfmt::skip]
impl BitAccess for Own {
    fn get_bit(&self, bit_nr: usize) -> bool { self.0.get_bit(bit_nr) }
    unsafe fn get_bit_unchecked(&self, bit_nr: usize) -> bool { self.0.get_bit(bit_nr) }
    fn try_get_bit(&self, bit_nr: usize) -> Option<bool> { self.0.try_get_bit(bit_nr) }
    fn set_bit_to(&mut self, bit_nr: usize, value: bool) { self.0.set_bit_to(bit_nr, value) }
    unsafe fn set_bit_to_unchecked(&mut self, bit_nr: usize, value: bool) { self.0.set_bit_to(bit_nr, value) }
    fn init_bit(&mut self, bit_nr: usize, value: bool) { self.0.init_bit(bit_nr, value) }
    unsafe fn init_bit_unchecked(&mut self, bit_nr: usize, value: bool) { self.0.init_bit(bit_nr, value) }
    fn set_bit(&mut self, bit_nr: usize) { self.0.set_bit(bit_nr) }
    unsafe fn set_bit_unchecked(&mut self, bit_nr: usize) { self.0.set_bit(bit_nr) }
    fn clear_bit(&mut self, bit_nr: usize) { self.0.clear_bit(bit_nr) }
    unsafe fn clear_bit_unchecked(&mut self, bit_nr: usize) { self.0.clear_bit(bit_nr) }
    fn try_get_bits_unmasked(&self, begin: usize, len: u8) -> Option<u64> { self.0.try_get_bits_unmasked(begin, len) }
    unsafe fn get_bits_unmasked_unchecked(&self, begin: usize, len: u8) -> u64 { self.0.get_bits_unmasked(begin, len) }
    fn init_bits(&mut self, begin: usize, v: u64, len: u8) { self.0.init_bits(begin, v, len) }
    unsafe fn init_bits_unchecked(&mut self, begin: usize, v: u64, len: u8) { self.0.init_bits(begin, v, len) }
    fn set_bits(&mut self, begin: usize, v: u64, len: u8) { self.0.set_bits(begin, v, len) }
    unsafe fn set_bits_unchecked(&mut self, begin: usize, v: u64, len: u8) { self.0.set_bits(begin, v, len) }
    fn xor_bits(&mut self, begin: usize, v: u64, len: u8) { self.0.xor_bits(begin, v, len) }
    fn count_bit_zeros(&self) -> usize { self.0.count_bit_zeros() }
    fn count_bit_ones(&self) -> usize { self.0.count_bit_ones() }
    fn bit_ones(&self) -> BitOnesIterator<'_> { self.0.bit_ones() }
    fn bit_zeros(&self) -> BitZerosIterator<'_> { self.0.bit_zeros() }
    fn bit_iter(&self) -> BitIterator<'_> { self.0.bit_iter() }
    fn bit_in_range_iter(&self, bit_range: Range<usize>) -> BitIterator<'_> { self.0.bit_in_range_iter(bit_range) }
    unsafe fn bit_in_unchecked_range_iter(&self, all: Range<usize>) -> BitIterator<'_> { self.0.bit_in_range_iter(all) }
    fn trailing_zero_bits(&self) -> usize { self.0.trailing_zero_bits() }
    unsafe fn find_bit_one_unchecked(&self, start_index: usize) -> usize { self.0.find_bit_one(start_index).unwrap() }
    fn find_bit_one(&self, start_index: usize) -> Option<usize> { self.0.find_bit_one(start_index) }
    unsafe fn rfind_bit_one_unchecked(&self, at: usize) -> usize { (0..=at).rfind(|it| self.0.get_bit(*it)).unwrap() }
}

/// A user's type with exactly the two constructors that the original requires.
#[rustfmt::skip]
impl BitVec for Own {
    fn with_64bit_segments(segments_value: u64, segments_len: usize) -> Self { Own(vec![segments_value; segments_len]) }
    fn with_bitwords(word: u64, word_len_bits: u8, words_count: usize) -> Self {
        Own(Box::<[u64]>::with_bitwords(word, word_len_bits, words_count).into())
    }
}

#[test]
fn a_users_own_bits_and_vectors() {
    let mut own = Own::with_zeroed_bits(100);
    own.set_fragment(3, 21, 5);
    assert_eq!((own.get_fragment(3, 5), own.try_get_fragment(25, 5)), (21, None));
    assert_eq!((own.try_set_bits(127, 1, 2), own.try_set_bits(126, 1, 2)), (None, Some(())));
    own.swap_fragments(0, 3, 5);
    assert_eq!((own.get_bits(0, 5), own.count_bit_ones()), (21, 4));
    assert_eq!(Own::with_filled_bits(65).0, [u64::MAX; 2]);
    assert_eq!(Own::with_bitwords(3, 2, 2).0, [0b1111]);
    // As in the original, one impl for boxes is enough to know the type.
    let words = Box::with_zeroed_bits(65);
    assert_eq!(bitm::ArrayWithRank101111::build(words).1, 0);
    assert!(bitm::RankSelect101111::<bitm::BinaryRankSearch>::build(BitVec::with_filled_bits(1)).1 == 64);
    type B = Box<[u64]>;
    let _: fn(u64, usize) -> B = B::with_64bit_segments;
    let _: fn(u64, u8, usize) -> B = B::with_bitwords;
    let _: [fn(usize) -> B; 4] =
        [B::with_zeroed_64bit_segments, B::with_filled_64bit_segments, B::with_zeroed_bits, B::with_filled_bits];
}
