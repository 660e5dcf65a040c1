//! Cursors beside plain lists: moves, iteration, intersections and unions of several, wrong parts.
mod common;
use bitm_proved::{Cursor, EliasFano, SequenceView, WrongTables};
use common::Random;
use std::collections::BTreeSet;

fn numbers(random: &mut Random, shift: usize) -> Vec<u64> {
    let len = random.below(200) * usize::from(random.below(8) > 0);
    let mut all: Vec<u64> = (0..len).map(|_| random.next() >> shift).collect();
    all.extend((random.below(3) == 0).then_some(u64::MAX));
    all.sort();
    all
}

fn stands(cursor: &Cursor<'_>, plain: &[u64], index: usize) {
    assert_eq!((cursor.index(), cursor.number()), (index, plain.get(index).copied()));
}

#[test]
fn a_cursor_moves_as_an_index_of_a_list() {
    let mut random = Random(21);
    for _ in 0..400 {
        let shift = random.below(64);
        let plain = numbers(&mut random, shift);
        let made = EliasFano::build(&plain).expect("sorted");
        let (mut cursor, mut index) = (made.cursor(), 0);
        for _ in 0..40 {
            stands(&cursor, &plain, index);
            let here = plain.get(index).copied();
            if random.below(3) == 0 {
                assert_eq!(cursor.next(), here);
                index = here.map_or(index, |it| plain.partition_point(|x| *x <= it));
                continue;
            }
            let near = plain.get(random.below(plain.len() + 1)).copied().unwrap_or(random.next());
            let value = if random.below(2) == 0 { near } else { here.unwrap_or(7).saturating_add(random.next() % 9) };
            index = index.max(plain.partition_point(|x| *x < value));
            assert_eq!(cursor.next_geq(value), plain.get(index).copied());
            assert_eq!(cursor.checked_next_geq(value), Ok(plain.get(index).copied()));
        }
        let rest: BTreeSet<u64> = plain[index..].iter().copied().collect();
        assert!(cursor.clone().eq(rest));
        stands(&cursor, &plain, index);
        assert_eq!((cursor.by_ref().count() > 0, cursor.next()), (index < plain.len(), None));
        stands(&cursor, &plain, plain.len());
    }
}

#[test]
fn merges_are_those_of_sets() {
    let mut random = Random(22);
    for _ in 0..300 {
        let shift = 54 + random.below(9);
        let plain: Vec<Vec<u64>> = (0..1 + random.below(5)).map(|_| numbers(&mut random, shift)).collect();
        let made: Vec<EliasFano> = plain.iter().map(|it| EliasFano::build(it).expect("sorted")).collect();
        let lists = || made.iter().map(|it| it.cursor()).collect::<Vec<_>>();
        let any: BTreeSet<u64> = plain.iter().flatten().copied().collect();
        let all: BTreeSet<u64> = any.iter().copied().filter(|it| plain.iter().all(|of| of.contains(it))).collect();
        assert!(
            Cursor::union(lists()).eq(any.iter().copied()) && Cursor::intersection(lists()).eq(all.iter().copied())
        );
        let (from, mut room) = (random.next() >> shift, vec![7; random.below(30)]);
        let wanted: Vec<u64> = all.range(from..).copied().take(room.len()).collect();
        assert_eq!(Cursor::checked_intersect(&mut lists(), from, &mut room), Ok(&wanted[..]));
        let wanted: Vec<u64> = any.range(from..).copied().take(room.len()).collect();
        assert_eq!(Cursor::checked_union(&mut lists(), from, &mut room), Ok(&wanted[..]));
    }
}

#[test]
fn answers_end_with_a_block_and_with_the_greatest_number() {
    for len in [0u64, 1, 63, 64, 65, 128, 1000] {
        let mut plain: Vec<u64> = (0..len).map(|it| 3 * it).collect();
        for _ in 0..2 {
            let made = EliasFano::build(&plain).expect("sorted");
            let mut both = Cursor::intersection([made.cursor(), made.cursor()]);
            assert!(both.by_ref().eq(plain.iter().copied()) && both.next().is_none());
            assert!(Cursor::union([made.cursor()]).eq(plain.iter().copied()));
            plain.pop();
            plain.push(u64::MAX);
        }
    }
    let none = Cursor::checked_union(&mut [], 0, &mut [1]).map(|it| it.len());
    assert_eq!((none, Cursor::union([]).next()), (Ok(0), None));
    assert_eq!(common::says(|| drop(Cursor::intersection([]))), "there is no cursor");
    assert_eq!(common::says(|| assert!(Cursor::checked_intersect(&mut [], 0, &mut [1]).is_ok())), "there is no cursor");
}

#[test]
fn a_cursor_outlives_a_view_and_moves_to_a_thread() {
    let made = EliasFano::build(&[2, 3, 5, 7]).expect("sorted");
    let cursor = {
        let view: SequenceView<'_> = *made.view();
        view.cursor()
    };
    let sum = std::thread::scope(|scope| scope.spawn(move || cursor.sum::<u64>()).join().expect("ends"));
    assert_eq!(sum, 17);
    assert_eq!(format!("{:?}", made.cursor()), "Cursor { index: 0, number: Some(2) }");
}

#[test]
fn parts_of_no_sequence_end_or_are_refused() {
    let zeros = [0u64];
    let none = SequenceView::new(3, 0, [&[], &zeros, &zeros, &zeros]).expect("the lengths fit");
    assert_eq!(Cursor::new(&none).err(), Some(WrongTables));
    assert_eq!(common::says(move || assert_eq!(none.cursor().next(), None)), "the tables do not match the words");
    let mut random = Random(23);
    for _ in 0..300 {
        let made = EliasFano::build(&numbers(&mut random, 50)).expect("sorted");
        let (len, width, parts) = (made.len(), made.view().width(), made.view().parts());
        let mut own = parts.map(|it| it.to_vec());
        for part in own.iter_mut().filter(|it| !it.is_empty()) {
            let at = random.below(part.len());
            part[at] ^= random.next() & random.next();
        }
        let [low, words, upper, lower] = &own;
        let view = SequenceView::new(len, width, [low, words, upper, lower]).expect("the lengths fit");
        let Ok(mut cursor) = Cursor::new(&view) else { continue };
        let mut lists = [cursor.clone(), made.cursor()];
        for value in 0..60 {
            assert!(!cursor.checked_next_geq(value).is_ok_and(|it| it.is_some_and(|it| it < value)));
        }
        let mut room = [0; 50];
        for call in [Cursor::checked_intersect, Cursor::checked_union] {
            assert!(call(&mut lists, 2, &mut room).unwrap_or(&[]).windows(2).all(|it| it[0] < it[1]));
        }
    }
}
