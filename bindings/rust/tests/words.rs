//! The calls of `words` beside plain loops: counts, neighbours, ranges and combinations, where what lies past the
//! length is neither counted, found nor changed.
mod common;
use bitm_proved::words;
use common::{bits_of, positions_of, says, Random};

/// Words of bits, and other bits after them up to the end of a last word.
fn of_bits(bits: &[bool], after: &[u64]) -> Vec<u64> {
    let mut words = after.to_vec();
    for (i, bit) in bits.iter().enumerate() {
        words[i / 64] = words[i / 64] & !(1 << (i % 64)) | u64::from(*bit) << (i % 64);
    }
    words
}

/// Words, how many of their bits count, and these bits.
fn content(random: &mut Random) -> (Vec<u64>, usize, Vec<bool>) {
    let len = random.below(5);
    let words = random.words(len);
    let bits_len = random.below(64 * len + 1);
    let bits = bits_of(&words, bits_len);
    (words, bits_len, bits)
}

#[test]
fn counts_neighbours_and_positions() {
    let mut random = Random(21);
    for _ in 0..2000 {
        let (content, len, bits) = content(&mut random);
        for one in [true, false] {
            let all = positions_of(&bits, one);
            assert_eq!(words::count(&content, len, one), all.len());
            let (from, to) = (random.below(len + 2), random.below(len + 2));
            let count = all.iter().filter(|it| (from..to).contains(it)).count();
            let inside = from <= to && to <= len;
            assert_eq!(words::count_range(&content, len, one, from, to), inside.then_some(count));
            for at in [from, to, len, usize::MAX] {
                let (next, previous) = (all.iter().find(|it| **it >= at), all.iter().rfind(|it| **it <= at));
                assert_eq!(words::next(&content, len, one, at), next.copied());
                assert_eq!(words::previous(&content, len, one, at), previous.copied());
            }
            let mut room = vec![7; random.below(9)];
            let rest: Vec<u64> = all.iter().filter(|it| **it >= from).map(|it| *it as u64).collect();
            let wanted = &rest[..rest.len().min(room.len())];
            assert_eq!(words::positions(&content, len, one, from, &mut room), wanted);
            assert!(room[wanted.len()..].iter().all(|it| *it == 7));
        }
    }
}

#[test]
fn ranges_are_filled_flipped_and_cleared() {
    let mut random = Random(22);
    for _ in 0..2000 {
        let (content, len, bits) = content(&mut random);
        let (from, to, value) = (random.below(len + 2), random.below(len + 2), random.below(2) == 1);
        let inside = (from <= to && to <= len).then_some(());
        let changed = |change: &dyn Fn(bool) -> bool| {
            let changed: Vec<bool> = (0..len).map(|i| bits[i] ^ ((from..to).contains(&i) && change(bits[i]))).collect();
            of_bits(if inside.is_some() { &changed } else { &bits }, &content)
        };
        let mut made = content.clone();
        assert_eq!(words::fill_range(&mut made, len, from, to, value), inside);
        assert_eq!(made, changed(&|bit| bit != value));
        let mut made = content.clone();
        assert_eq!(words::flip_range(&mut made, len, from, to), inside);
        assert_eq!(made, changed(&|_| true));
        let mut made = content.clone();
        words::clear_from(&mut made, len);
        assert_eq!(made, of_bits(&bits, &vec![0; content.len()]));
        words::clear_from(&mut made, usize::MAX);
        assert_eq!(words::count(&made, 64 * made.len(), true), positions_of(&bits, true).len());
    }
}

#[test]
fn ranges_are_copied_and_compared() {
    let mut random = Random(23);
    for _ in 0..4000 {
        let ((to, _, _), (from, _, _)) = (content(&mut random), content(&mut random));
        let (to_len, from_len) = (64 * to.len(), 64 * from.len());
        let (to_begin, from_begin) = (random.below(to_len + 2), random.below(from_len + 2));
        let count = random.below(from_len + 2);
        let inside = to_begin + count <= to_len && from_begin + count <= from_len;
        let (mut wanted, source) = (bits_of(&to, to_len), bits_of(&from, from_len));
        let mut same = false;
        if inside {
            let range = to_begin..to_begin + count;
            same = wanted[range.clone()] == source[from_begin..from_begin + count];
            wanted[range].copy_from_slice(&source[from_begin..from_begin + count]);
        }
        let equal = |a: &[u64]| words::equal_range(a, to_begin, &from, from_begin, count);
        assert_eq!(equal(&to), inside.then_some(same));
        let mut made = to.clone();
        let done = words::copy_range(&mut made, to_begin, &from, from_begin, count);
        assert_eq!((done.is_some(), &made), (inside, &of_bits(&wanted, &to)));
        assert_eq!(equal(&made), inside.then_some(true));
    }
    assert_eq!(words::copy_range(&mut [0], usize::MAX, &[0], 1, 2), None);
}

type Combine = fn(&mut [u64], &[u64]) -> Option<()>;
type Plain = fn(u64, u64) -> u64;

#[test]
fn words_are_combined() {
    let mut random = Random(24);
    let all: [(Combine, Plain); 4] = [
        (words::and, |a, b| a & b),
        (words::or, |a, b| a | b),
        (words::xor, |a, b| a ^ b),
        (words::and_not, |a, b| a & !b),
    ];
    for len in 0..40 {
        let (a, b) = (random.words(len), random.words(len));
        for (call, plain) in all {
            let mut made = a.clone();
            assert_eq!(call(&mut made, &b), Some(()));
            assert!(made.iter().copied().eq(a.iter().zip(&b).map(|(a, b)| plain(*a, *b))));
            let before = made.clone();
            assert_eq!((call(&mut made, &[&b[..], &[1]].concat()), &made), (None, &before));
        }
    }
}

#[test]
fn more_bits_than_there_are_is_a_panic() {
    let wanted = "129 bits are more than 2 words have, or these are 2^58 or more";
    let calls: [fn(); 8] = [
        || assert!(words::get(&[0, 0], 129, 0).is_some()),
        || assert!(words::get_number(&[0, 0], 129, 0, 1).is_some()),
        || assert!(words::next(&[0, 0], 129, true, 0).is_some()),
        || assert!(words::previous(&[0, 0], 129, true, 0).is_some()),
        || assert!(words::positions(&[0, 0], 129, true, 0, &mut []).is_empty()),
        || assert!(words::set(&mut [0, 0], 129, 0, true).is_some()),
        || assert!(words::fill_range(&mut [0, 0], 129, 0, 1, true).is_some()),
        || assert!(words::swap_fragments(&mut [0, 0], 129, 0, 1, 1).is_some()),
    ];
    for call in calls {
        assert_eq!(says(call), wanted);
    }
}
