//! Inlined Rust beside the proved calls: single bits, numbers of each width, fragments, masks, bytes and iterators,
//! over random words and at each edge.
mod common;
use bitm_proved::{self as bitm, words, BitAccess, BitBIterator, BitIterator, BitVec};
use common::{bits_of, positions_of, Random};

#[test]
fn single_bits() {
    let mut random = Random(1);
    for _ in 0..300 {
        let len = random.below(4);
        let (mut mine, end) = (random.words(len), 64 * len);
        let mut proved = mine.clone();
        for position in (0..end + 3).chain([usize::MAX]) {
            let value = random.below(2) == 1;
            assert_eq!(mine.try_get_bit(position), words::get(&proved, end, position));
            let done = words::set(&mut proved, end, position, value);
            assert_eq!(done.is_some(), position < end);
            if done.is_some() {
                assert_eq!(Some(mine.get_bit(position)), mine.try_get_bit(position));
                mine.set_bit_to(position, value);
            }
            assert_eq!(mine, proved);
        }
    }
}

/// Each width from each position to past the end.
#[test]
fn numbers_of_all_widths() {
    let mut random = Random(2);
    for len in 0..4 {
        let end = 64 * len;
        for begin in (0..end + 2).chain([usize::MAX - 3, usize::MAX]) {
            for width in (0..=66).chain([128, 255]) {
                let mut mine = random.words(len);
                let proved = words::get_number(&mine, end, begin, width);
                assert_eq!(mine.try_get_bits(begin, width), proved, "{width} bits from {begin} of {end}");
                let unmasked = mine.try_get_bits_unmasked(begin, width);
                assert_eq!(unmasked, reach(begin, width, end).and_then(|it| words::get_number(&mine, end, begin, it)));
                let (value, mut other) = (random.next(), mine.clone());
                let done = words::set_number(&mut other, end, begin, width, value);
                assert_eq!(mine.try_set_bits(begin, value, width), done);
                assert_eq!(mine, other);
                if done.is_some() {
                    let low = value & bitm::n_lowest_bits_0_64(width);
                    assert_eq!(mine.get_bits(begin, width), low);
                    words::xor_number(&mut other, end, begin, width, value);
                    mine.xor_bits(begin, low, width);
                    assert_eq!(mine, other);
                    words::set_number(&mut other, end, begin, width, 0);
                    mine.set_bits(begin, 0, width);
                    mine.init_bits(begin, value, width);
                    words::set_number(&mut other, end, begin, width, value);
                    assert_eq!(mine, other);
                }
            }
        }
    }
}

/// How many bits an unmasked read has: those of the word, or 64 where it crosses its end.
fn reach(begin: usize, width: u8, end: usize) -> Option<u8> {
    let left = 64 - (begin % 64) as u8;
    match width {
        0 if begin == end => Some(0),
        65.. => None,
        _ if begin >= end => None,
        _ if width <= left => Some(left),
        _ => Some((end - begin).min(64) as u8).filter(|it| *it >= width),
    }
}

#[test]
fn fragments() {
    let mut random = Random(3);
    for width in 0..=65u8 {
        for index in (0..200).chain([usize::MAX, usize::MAX / 64 + 1]) {
            let mut mine = random.words(3);
            let (mut other, value) = (mine.clone(), random.next());
            let found = words::get_fragment(&other, 192, index, width);
            assert_eq!(mine.try_get_fragment(index, width), found, "{index} of {width} bits");
            let done = words::set_fragment(&mut other, 192, index, width, value);
            assert_eq!(done.is_some(), found.is_some());
            if done.is_some() {
                assert_eq!(Some(mine.get_fragment(index, width)), found);
                mine.set_fragment(index, value, width);
                assert_eq!(mine, other);
                let second = random.below(192 / usize::from(width.max(1)));
                words::swap_fragments(&mut other, 192, index, second, width);
                mine.swap_fragments(index, second, width);
                assert_eq!(mine, other);
            }
        }
    }
    for (width, count) in (0..=64u8).flat_map(|width| [(width, 0), (width, 3), (width, 70)]) {
        let value = random.next() & bitm::n_lowest_bits_0_64(width);
        let made = Box::<[u64]>::with_bitwords(value, width, count);
        assert_eq!(made.len(), (count * usize::from(width)).div_ceil(64));
        assert!((0..count).all(|index| made.get_fragment(index, width) == value));
    }
}

#[test]
fn masks_digits_and_densities() {
    for how_many in 0..=64u8 {
        let plain = (0..how_many).fold(0u64, |all, bit| all | 1 << bit);
        assert_eq!(bitm::n_lowest_bits_0_64(how_many), plain);
        assert!(how_many == 64 || bitm::n_lowest_bits(how_many) == plain);
        assert!(how_many == 0 || bitm::n_lowest_bits_1_64(how_many) == plain);
        for value in [plain, plain >> 1, plain.wrapping_add(1)] {
            assert_eq!(bitm::bits_to_store(value), words::to_store(value));
        }
    }
    let mut random = Random(4);
    for _ in 0..20_000 {
        let len = (random.next() >> random.below(64)) as usize;
        let items = random.next() as usize % len.saturating_add(1).max(1);
        for (items, len) in [(items, len), (0, len), (len, len), (len / 2, len), (len / 4 * 3, len)] {
            let most = 7 + random.below(25) as u8;
            let mine = bitm::optimal_combined_sampling(items, len, most);
            assert_eq!(mine, words::optimal_log2(items, len, most), "{items} of {len}, {most}");
        }
        assert_eq!(bitm::ceiling_div(len, 64), len / 64 + usize::from(len % 64 > 0));
        let word = random.next();
        let (bits, rank) = (positions_of(&bits_of(&[word], 64), true), random.below(66));
        assert_eq!(words::select_in_word(word, rank as u8).map(usize::from), bits.get(rank).copied());
    }
}

#[test]
fn bytes() {
    let mut random = Random(5);
    for first_bit in 0..130 {
        let mut mine: Vec<u8> = (0..24).map(|_| random.next() as u8).collect();
        let (mut other, value, mask) = (mine.clone(), random.next(), random.next());
        let at = mine.as_mut_ptr();
        // SAFETY: the eight bytes from byte 16 on end at byte 24.
        unsafe {
            assert_eq!(Some(bitm::get_bits57(at, first_bit)), words::bytes_get57(&other, first_bit));
            assert_eq!(Some(bitm::get_bits25(at, first_bit)), words::bytes_get25(&other, first_bit));
            bitm::init_bits57(at, first_bit, value);
            bitm::init_bits25(at, first_bit, mask as u32);
        }
        words::bytes_init57(&mut other, first_bit, value).expect("inside");
        words::bytes_init25(&mut other, first_bit, mask as u32).expect("inside");
        assert_eq!(mine, other);
        let at = mine.as_mut_ptr();
        // SAFETY: as before.
        unsafe {
            bitm::set_bits57(at, first_bit, value, mask);
            bitm::set_bits25(at, first_bit, mask as u32, value as u32);
        }
        words::bytes_set57(&mut other, first_bit, value, mask).expect("inside");
        words::bytes_set25(&mut other, first_bit, mask as u32, value as u32).expect("inside");
        assert_eq!(mine, other);
    }
    let mut few = [0; 7];
    assert_eq!((words::bytes_get57(&few, 0), words::bytes_get25(&few, 32)), (None, None));
    assert_eq!((words::bytes_set57(&mut few, 0, 1, 1), words::bytes_init25(&mut few, 32, 1)), (None, None));
}

/// From both ends by turns, beside a plain list.
fn from_both_ends<const B: bool>(content: &[u64], range: std::ops::Range<usize>, random: &mut Random) {
    let bits = bits_of(content, 64 * content.len());
    let mut plain = positions_of(&bits, B);
    plain.retain(|it| range.contains(it));
    let mut walk = BitBIterator::<B>::with_range(content, range.clone());
    assert!(walk.clone().eq(plain.iter().copied()));
    assert!(walk.clone().rev().eq(plain.iter().rev().copied()));
    let mut rest = std::collections::VecDeque::from(plain);
    let mut steps = 0;
    while steps < 2 {
        if random.below(8) == 0 {
            assert_eq!((walk.len(), walk.size_hint()), (rest.len(), (rest.len(), Some(rest.len()))));
        }
        let skip = if random.below(5) == 0 { random.below(90) } else { 0 };
        let (mine, plain) = match random.below(3) {
            0 => (walk.next(), rest.pop_front()),
            1 => (walk.next_back(), rest.pop_back()),
            _ => {
                rest.drain(..skip.min(rest.len()));
                (walk.nth(skip), rest.pop_front())
            }
        };
        assert_eq!(mine, plain);
        steps += usize::from(plain.is_none());
    }
    let mut walk = BitIterator::with_range(content, range.clone());
    let bits = &bits[range.start.min(range.end)..range.end];
    assert!(walk.clone().eq(bits.iter().copied()) && walk.clone().rev().eq(bits.iter().rev().copied()));
    let step = random.below(bits.len() + 2);
    assert_eq!((walk.nth(step), walk.len()), (bits.get(step).copied(), bits.len().saturating_sub(step + 1)));
}

#[test]
fn iterators_from_both_ends() {
    let mut random = Random(6);
    for _ in 0..1500 {
        let len = random.below(5);
        let content = random.words(len);
        let mut ends = [random.below(64 * len + 1), random.below(64 * len + 1)];
        ends.sort();
        for range in [ends[0]..ends[1], 0..64 * len, 0..ends[0], ends[1]..64 * len] {
            from_both_ends::<true>(&content, range.clone(), &mut random);
            from_both_ends::<false>(&content, range, &mut random);
        }
        let mut room = vec![0; 64 * len];
        for (one, from) in [(true, 0), (false, 0), (true, ends[0]), (false, ends[1])] {
            let proved = words::positions(&content, 64 * len, one, from, &mut room);
            let proved = proved.iter().map(|it| *it as usize);
            match one {
                true => {
                    assert!(BitBIterator::<true>::with_range(&content, from..64 * len).eq(proved))
                }
                false => {
                    assert!(BitBIterator::<false>::with_range(&content, from..64 * len).eq(proved))
                }
            }
        }
        assert!(content.bit_ones().len() == content.count_bit_ones());
        assert!(content.bit_zeros().len() == content.count_bit_zeros());
    }
}
