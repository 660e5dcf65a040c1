//! Sequences beside plain lists: queries, iterators from either end and from a value, intersections, wrong parts.
mod common;
use bitm_proved::{
    intersection, BuildError, EliasFano, ListError, Sequence, SequenceView, StoredError, WrongTables, NO_ANSWER,
};
use common::Random;

fn numbers(random: &mut Random) -> Vec<u64> {
    let (len, shift) = (random.below(200), random.below(64));
    let mut all: Vec<u64> = (0..len).map(|_| random.next() >> shift).collect();
    all.sort();
    all
}

fn single<O>(made: &Sequence<O>, plain: &[u64], random: &mut Random) {
    let len = plain.len();
    assert_eq!((made.len(), made.is_empty(), made.check()), (len, len == 0, true));
    for _ in 0..60 {
        let near = plain.get(random.below(len + 1)).copied().unwrap_or(random.next());
        let value = near.wrapping_add(random.next() % 3).wrapping_sub(1);
        let (first, after) = (plain.partition_point(|it| *it < value), plain.partition_point(|it| *it <= value));
        assert_eq!(made.first_at_least(value), (first < len).then_some(first));
        assert_eq!(made.last_at_most(value), after.checked_sub(1));
        assert_eq!(made.contains(value), first < after);
        let index = random.below(len + 2);
        assert_eq!(made.get(index), plain.get(index).copied());
        assert!(made.iter_from(value).eq(plain[first..].iter().copied()));
        assert!(made.iter_from(value).rev().eq(plain[first..].iter().rev().copied()));
        let to = index.min(len);
        let from = random.below(to + 1);
        assert!(made.range(from..to).eq(plain[from..to].iter().copied()));
        let mut room = [7; 5];
        let rest = &plain[from..len.min(from + 5)];
        assert_eq!(made.view().items(from, &mut room), rest);
    }
    assert!(made.iter().eq(plain.iter().copied()) && made.iter().len() == len);
}

fn by_turns(made: &EliasFano, plain: &[u64], random: &mut Random) {
    let (mut walk, mut rest) = (made.iter(), std::collections::VecDeque::from(plain.to_vec()));
    for _ in 0..plain.len() + 3 {
        let len = plain.len() - rest.len();
        match random.below(5) {
            0 | 1 => assert_eq!(walk.next(), rest.pop_front()),
            2 => assert_eq!(walk.next_back(), rest.pop_back()),
            3 => {
                let skip = random.below(20);
                rest.drain(..skip.min(rest.len()));
                assert_eq!(walk.nth(skip), rest.pop_front());
            }
            _ => {
                let value = plain[(len + random.below(9)).min(plain.len() - 1)];
                rest.drain(..rest.partition_point(|it| *it < value));
                assert_eq!(walk.next_geq(value), rest.pop_front());
            }
        }
        assert_eq!(walk.len(), rest.len());
    }
    assert!(walk.eq(rest));
}

#[test]
fn sequences_are_plain_lists() {
    let mut random = Random(11);
    for _ in 0..300 {
        let plain = numbers(&mut random);
        let made = EliasFano::build(&plain).expect("sorted");
        single(&made, &plain, &mut random);
        single(&made.clone(), &plain, &mut random);
        let file = made.to_stored().expect("the lengths are right");
        let read = Sequence::from_words(&file).expect("just written");
        single(&read, &plain, &mut random);
        assert_eq!(read.to_stored(), Ok(file.clone()));
        assert_eq!(Sequence::from_words(&file[..file.len() - 1]).err(), Some(StoredError::NotWhole));
        if !plain.is_empty() {
            by_turns(&made, &plain, &mut random);
        }
    }
}

#[test]
fn intersections_have_what_both_have_once() {
    let mut random = Random(12);
    for _ in 0..300 {
        let shift = 54 + random.below(8);
        let mut list = || {
            let mut all: Vec<u64> = (0..random.below(150)).map(|_| random.next() >> shift).collect();
            all.push(u64::MAX);
            all.sort();
            all
        };
        let (a, b) = (list(), list());
        let mut wanted = a.clone();
        wanted.retain(|it| b.contains(it));
        wanted.dedup();
        let (a, b) = (EliasFano::build(&a).expect("sorted"), EliasFano::build(&b).expect("sorted"));
        assert!(intersection(a.iter(), b.iter()).eq(wanted.iter().copied()));
        assert!(intersection(b.iter(), a.iter()).eq(wanted));
    }
}

#[test]
fn lists_of_queries() {
    let mut random = Random(13);
    for _ in 0..100 {
        let plain = numbers(&mut random);
        let (made, len) = (EliasFano::build(&plain).expect("sorted"), plain.len());
        let values: Vec<u64> = (0..40).map(|_| random.next() >> random.below(64)).collect();
        let (mut out, mut flags) = ([7; 40], [7; 40]);
        let first = values.iter().map(|it| plain.partition_point(|x| x < it));
        let missing = first.clone().filter(|it| *it == len).count();
        assert_eq!(made.first_at_least_list(&values, &mut out), Ok(missing));
        assert!(out.iter().copied().eq(first.map(|it| if it < len { it } else { NO_ANSWER })));
        let last = values.iter().map(|it| plain.partition_point(|x| x <= it).checked_sub(1));
        let missing = last.clone().filter(|it| it.is_none()).count();
        assert_eq!(made.last_at_most_list(&values, &mut out), Ok(missing));
        assert!(out.iter().copied().eq(last.map(|it| it.unwrap_or(NO_ANSWER))));
        assert_eq!(made.contains_list(&values, &mut flags), Ok(()));
        assert!(flags.iter().zip(&values).all(|(flag, it)| *flag == u64::from(plain.contains(it))));
        let indexes: Vec<usize> = (0..40).map(|_| random.below(len + 1)).collect();
        let until = indexes.iter().position(|it| *it == len).unwrap_or(40);
        let found = made.get_list(&indexes, &mut flags).expect("there is room");
        assert!(found.iter().copied().eq(indexes[..until].iter().map(|it| plain[*it])));
        let short = ListError::Lengths { queries: 40, room: 2 };
        assert_eq!(made.contains_list(&values, &mut [0; 2]), Err(short));
        assert_eq!(made.get_list(&indexes, &mut [0; 2]).err(), Some(short));
    }
}

#[test]
fn what_is_not_sorted_or_not_a_sequence_is_refused() {
    let why = EliasFano::build(&[1, 5, 4, 9]).err();
    assert_eq!(why, Some(BuildError::NotSorted { index: 2, number: 4, before: 5 }));
    assert_eq!(why.unwrap().to_string(), "number 2 (4) is less than number 1 (5)");
    let zeros = [0u64];
    let none = SequenceView::new(3, 0, [&[], &zeros, &zeros, &zeros]).expect("the lengths fit");
    assert!(!none.check() && none.checked_get(1) == Err(WrongTables));
    assert_eq!(none.get_list(&[1, 3], &mut [0; 2]), Err(ListError::WrongTables { wrong: 1 }));
    assert_eq!((none.get_list(&[3, 1], &mut [0; 2]), none.checked_get(3)), (Ok(&[][..]), Ok(None)));
    assert!(none.items(0, &mut [0; 3]).is_empty());
    assert_ne!(none.checked_contains(0), Ok(true)); // no number has the high bits of 0
    assert!(SequenceView::new(3, 7, [&[], &zeros, &zeros, &zeros]).is_err());
    let says = common::says(move || assert_eq!(none.iter().next(), None));
    assert_eq!(says, "the tables do not match the words");
}
