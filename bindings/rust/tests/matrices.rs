//! Lists of numbers beside plain vectors; numbers that are too wide, lists of queries, owners, blocks that are spoilt or
//! cut.
mod common;
use bitm_proved::{
    bytes_of, BuildError, Kind, ListError, StoredError, Tree, TreeView, WaveletMatrix, WaveletMatrixView, WrongTables,
    NO_ANSWER,
};
use common::{any_owner, other_kind, with_any_words, with_one_bit_changed, Random};
use std::collections::BTreeMap;
use std::panic::{RefUnwindSafe, UnwindSafe};
use std::sync::Arc;

fn drawn(count: usize, bits: u32, random: &mut Random) -> Vec<u64> {
    let few = u64::MAX >> (64 - bits);
    (0..count)
        .map(|_| if random.below(3) > 0 { random.next() >> (64 - bits) } else { (random.next() % 3) & few })
        .collect()
}

/// The answers about a range, by sorting it.
fn range(numbers: &WaveletMatrixView<'_>, plain: &[u64], (from, to): (usize, usize), asked: u64) {
    let mut part = plain[from..to].to_vec();
    part.sort();
    let below = part.partition_point(|it| *it < asked);
    assert_eq!(numbers.count_less(from..to, asked), Some(below));
    assert_eq!(numbers.next_value(from..to, asked), part.get(below).copied());
    assert_eq!(numbers.previous_value(from..to, asked), below.checked_sub(1).map(|it| part[it]));
    for k in [0, part.len() / 2, part.len(), usize::MAX] {
        assert_eq!(numbers.quantile(from..to, k), part.get(k).copied());
    }
}

/// The lists of a range and of another, beside a map of how often each number is there.
fn lists_of_ranges(numbers: &WaveletMatrixView<'_>, plain: &[u64], (from, to): (usize, usize), random: &mut Random) {
    let (len, mut counts) = (plain.len(), BTreeMap::<u64, usize>::new());
    for number in &plain[from..to] {
        *counts.entry(*number).or_default() += 1;
    }
    let (other, room) = (random.below(len + 1), if random.below(5) == 0 { len } else { random.below(9) });
    let least = if len > 0 && random.below(2) == 0 { plain[random.below(len)] } else { 0 };
    let (mut list, mut of_each) = (vec![9; room], vec![9; room]);
    let later: Vec<(u64, usize)> = counts.range(least..).map(|(number, count)| (*number, *count)).collect();
    let written = numbers.distinct(from..to, least, &mut list, &mut of_each).unwrap().unwrap();
    let found: Vec<(u64, usize)> = list.iter().copied().zip(of_each.iter().copied()).take(written).collect();
    assert_eq!(found, later[..later.len().min(room)]);
    let shared: Vec<u64> = later.iter().map(|it| it.0).filter(|it| plain[other..].contains(it)).take(room).collect();
    let written = numbers.intersect(from..to, other..len, least, &mut list).unwrap().unwrap();
    assert_eq!(list[..written], shared);
    let mut often: Vec<(u64, usize)> = counts.into_iter().collect();
    often.sort_by_key(|it| (core::cmp::Reverse(it.1), it.0));
    let written = numbers.top(from..to, &mut list, &mut of_each).unwrap().unwrap();
    let found: Vec<(u64, usize)> = list.iter().copied().zip(of_each.iter().copied()).take(written).collect();
    assert_eq!(found, often[..often.len().min(room)]);
}

#[allow(clippy::reversed_empty_ranges)]
fn outside(numbers: &WaveletMatrixView<'_>) {
    let len = numbers.len();
    for wrong in [0..len + 1, len + 1..len + 1, 1..0, 0..usize::MAX, usize::MAX..0] {
        assert_eq!((numbers.count_less(wrong.clone(), 1), numbers.quantile(wrong.clone(), 0)), (None, None));
        assert_eq!((numbers.next_value(wrong.clone(), 1), numbers.previous_value(wrong.clone(), 1)), (None, None));
        let (mut list, mut counts) = ([9; 3], [9; 3]);
        assert_eq!(numbers.distinct(wrong.clone(), 0, &mut list, &mut counts), Ok(None));
        assert_eq!(numbers.top(wrong.clone(), &mut list, &mut counts), Ok(None));
        assert_eq!(numbers.intersect(0..0, wrong.clone(), 0, &mut list), Ok(None));
        assert_eq!(numbers.intersect(wrong, 0..0, 0, &mut list), Ok(None));
        assert_eq!(numbers.top(0..0, &mut list, &mut []), Err(ListError::Pairs { first: 3, second: 0 }));
        assert_eq!((list, counts), ([9; 3], [9; 3]));
    }
    for index in [len, len + 1, usize::MAX] {
        assert_eq!((numbers.get(index), numbers.rank(1, index).is_some()), (None, index == len));
    }
}

fn as_a_plain_list(numbers: &WaveletMatrixView<'_>, plain: &[u64], random: &mut Random) {
    let len = plain.len();
    assert_eq!((numbers.len(), numbers.is_empty(), numbers.check()), (len, len == 0, true));
    assert!((0..len).all(|i| numbers.get(i) == Some(plain[i])));
    let mut asked = vec![0, 1, u64::MAX];
    asked.extend((0..len.min(6)).map(|_| plain[random.below(len)]));
    for number in asked {
        let indexes: Vec<usize> = (0..len).filter(|i| plain[*i] == number).collect();
        assert_eq!((numbers.count(number), numbers.contains(number)), (indexes.len(), !indexes.is_empty()));
        for rank in (0..indexes.len().min(20)).chain([indexes.len(), usize::MAX]) {
            assert_eq!(numbers.select(number, rank), indexes.get(rank).copied());
        }
        let from = random.below(len + 1);
        let to = from + random.below(len - from + 1);
        assert_eq!(numbers.rank(number, to), Some(indexes.partition_point(|it| *it < to)));
        for part in [(from, to), (0, len), (from, from)] {
            range(numbers, plain, part, number);
            lists_of_ranges(numbers, plain, part, random);
        }
    }
    outside(numbers);
}

fn lists(list: &WaveletMatrix, plain: &[u64], random: &mut Random) {
    let len = plain.len();
    let numbers: Vec<u64> = (0..200).map(|i| if i % 3 > 0 { plain[random.below(len)] } else { i % 5 }).collect();
    let [ends, ranks, indices] = [len + 2, 4, len].map(|end| (0..200).map(|_| random.below(end)).collect::<Vec<_>>());
    let (mut out, mut items) = (vec![0; 200], vec![0; 200]);
    let or_none = |it: Option<usize>| it.unwrap_or(NO_ANSWER);
    let wanted: Vec<usize> = numbers.iter().zip(&ends).map(|(number, end)| or_none(list.rank(*number, *end))).collect();
    let missing = wanted.iter().filter(|it| **it == NO_ANSWER).count();
    assert_eq!((list.rank_list(&numbers, &ends, &mut out), &out), (Ok(missing), &wanted));
    let found: Vec<usize> =
        numbers.iter().zip(&ranks).map(|(number, rank)| or_none(list.select(*number, *rank))).collect();
    let missing = found.iter().filter(|it| **it == NO_ANSWER).count();
    assert_eq!((list.select_list(&numbers, &ranks, &mut out), &out), (Ok(missing), &found));
    let all: Vec<u64> = indices.iter().map(|it| plain[*it]).collect();
    assert_eq!(list.get_list(&indices, &mut items), Ok(&all[..]));
    assert_eq!(list.get_list(&[0, len, 0], &mut [9; 3]), Ok(&[plain[0]][..]));
    let short = ListError::Lengths { queries: 200, room: 199 };
    assert_eq!(list.get_list(&indices, &mut items[1..]), Err(short));
    assert_eq!(list.rank_list(&numbers, &ends, &mut out[1..]), Err(short));
    assert_eq!(list.select_list(&numbers, &ranks, &mut out[1..]), Err(short));
    let pairs = Err(ListError::Pairs { first: 200, second: 199 });
    assert_eq!(list.rank_list(&numbers, &ends[1..], &mut out), pairs);
    assert_eq!(list.select_list(&numbers, &ranks[1..], &mut out), pairs);
    assert_eq!((list.rank_list(&[], &[], &mut []), list.get_list(&[], &mut [])), (Ok(0), Ok(&[][..])));
}

#[test]
fn answers_are_those_of_plain_lists() {
    let mut random = Random(41);
    let mut all = vec![vec![], vec![0], vec![u64::MAX], vec![3, 1, 4, 1, 5, 1], vec![6; 700]];
    all.extend((1..20).map(|it: u32| drawn((it * it) as usize, 3 * it, &mut random)));
    all.push(drawn(2000, 12, &mut random));
    for plain in all {
        let (least, most) =
            (WaveletMatrix::build(&plain).expect("any"), WaveletMatrix::build_with(&plain, 64).expect("any"));
        let bits = plain.iter().max().map_or(0, |it| 64 - it.leading_zeros());
        assert_eq!((least.width(), most.width(), least.len()), (bits.max(1), 64, plain.len()));
        as_a_plain_list(least.view(), &plain, &mut random);
        as_a_plain_list(most.view(), &plain, &mut random);
        as_a_plain_list(least.clone().view(), &plain, &mut random);
        let quick = WaveletMatrix::build_with_quarters(&plain, bits.max(1)).expect("any");
        as_a_plain_list(quick.view(), &plain, &mut random);
        for quarters in [false, true] {
            let led = WaveletMatrix::build_with_hints(&plain, bits.max(1), quarters).expect("any");
            as_a_plain_list(led.view(), &plain, &mut random);
        }
        if !plain.is_empty() {
            lists(&least, &plain, &mut random);
            lists(&quick, &plain, &mut random);
        }
    }
}

#[test]
fn numbers_and_widths_that_are_refused() {
    let why = WaveletMatrix::build_with(&[1, 7, 8, 9], 3).err();
    assert_eq!(why, Some(BuildError::TooWide { index: 2, number: 8, width: 3 }));
    for width in [0, 65, u32::MAX] {
        assert_eq!(WaveletMatrix::build_with(&[], width).err(), Some(BuildError::WrongWidth { width }));
    }
    let texts = [why.unwrap(), BuildError::WrongWidth { width: 65 }].map(|it| it.to_string());
    assert_eq!(texts, ["number 2 (8) has more than 3 bits", "a width is 1 to 64 bits, not 65"]);
}

#[test]
fn any_owner_has_a_list_in_its_words_or_bytes() {
    let plain = drawn(300, 9, &mut Random(42));
    let file = WaveletMatrix::build(&plain).expect("any").into_owner();
    let look = |list: &WaveletMatrixView<'_>| as_a_plain_list(list, &plain, &mut Random(43));
    any_owner!(WaveletMatrix, WaveletMatrixView, file, "WaveletMatrix { numbers: 300, width: 9 }", look);
}

#[test]
fn lists_are_send_sync_and_unwind_safe() {
    fn all<T: Send + Sync + UnwindSafe + RefUnwindSafe>() {}
    all::<(WaveletMatrix, WaveletMatrix<Arc<[u64]>>, WaveletMatrix<&[u8]>, WaveletMatrixView<'_>)>();
    let plain = drawn(2000, 9, &mut Random(44));
    let list = WaveletMatrix::build(&plain).expect("any");
    std::thread::scope(|threads| {
        for _ in 0..4 {
            threads.spawn(|| (0..2000).for_each(|i| assert_eq!(list.get(i), Some(plain[i]))));
        }
    });
}

/// Answers of a block that may hold anything: inside, or an error. How many errors.
fn inside(list: &WaveletMatrixView<'_>, random: &mut Random) -> usize {
    let (len, most, mut wrong) = (list.len(), u64::MAX >> (64 - list.width()), 0);
    for index in (0..=len).step_by(3) {
        let (number, from) = (random.next() & most, random.below(index + 1));
        let values = [
            list.checked_get(index),
            list.checked_quantile(from..index, 0),
            list.checked_next_value(from..index, number),
            list.checked_previous_value(from..index, number),
        ];
        assert!(values.iter().all(|it| it.map_or(true, |it| it.is_none_or(|it| it <= most))));
        wrong += values.iter().filter(|it| **it == Err(WrongTables)).count();
        let (rank, less) = (list.checked_rank(number, index), list.checked_count_less(from..index, number));
        assert!(rank.map_or(true, |it| it.expect("inside") <= index));
        assert!(less.map_or(true, |it| it.expect("a range") <= index - from));
        let found = list.checked_select(number, index % 3);
        assert!(found.map_or(true, |it| it.is_none_or(|it| it < len)));
        wrong += [rank, less, found].iter().filter(|it| it.is_err()).count();
        let mut one = [0];
        match list.get_list(&[index], &mut one) {
            Ok(numbers) => assert!(numbers.len() == usize::from(index < len) && numbers.iter().all(|it| *it <= most)),
            Err(why) => assert!(index < len && why == ListError::WrongTables { wrong: 1 }),
        }
    }
    wrong
}

#[test]
fn each_changed_word_is_seen_and_never_leads_outside() {
    let mut random = Random(45);
    let good = WaveletMatrix::build(&drawn(90, 5, &mut random)).expect("any").into_owner();
    with_one_bit_changed(&good, 3, |block, in_header| match WaveletMatrixView::from_words(block) {
        Err(why) => assert_eq!((why, in_header), (StoredError::NotWhole, true)),
        Ok(list) => {
            assert!(!in_header && !list.check());
            inside(&list, &mut random);
        }
    });
    with_any_words(&good, &mut random, |block, random| {
        inside(&WaveletMatrixView::from_words(block).expect("the header is right"), random);
    });
}

#[test]
fn files_that_are_cut_or_of_another_kind_are_refused() {
    let good = WaveletMatrix::build(&drawn(90, 5, &mut Random(46))).expect("any").into_owner();
    for end in 0..good.len() {
        assert_eq!(WaveletMatrixView::from_words(&good[..end]).err(), Some(StoredError::NotWhole));
    }
    assert_eq!(WaveletMatrix::from_bytes(&bytes_of(&good)[1..]).err(), Some(StoredError::Misaligned));
    assert_eq!(TreeView::from_words(&good).err(), other_kind(Kind::WaveletMatrix, Kind::Tree));
    let tree = Tree::build(&[1, 0]).expect("a tree").into_owner();
    assert_eq!(WaveletMatrix::from_words(tree).err(), other_kind(Kind::Tree, Kind::WaveletMatrix));
}
