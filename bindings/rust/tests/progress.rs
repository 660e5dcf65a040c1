//! Builds that say how far they are: each step, the same bytes as without, nothing, errors, and callbacks that panic.
mod common;
use bitm_proved::{
    BuildError, EqualPair, KeyHash, KeyOptions, PerfectHash, Queries, SeededHash, TextIndex, WaveletMatrix,
};
use common::{says, Random};
use std::panic::{catch_unwind, AssertUnwindSafe};

type Steps = Vec<(usize, usize)>;

/// What a build gives, and the steps of which it says that they are done.
fn told<T>(
    build: impl FnOnce(&mut dyn FnMut(usize, usize)) -> Result<T, BuildError>,
) -> (Result<T, BuildError>, Steps) {
    let mut steps = Steps::new();
    let made = build(&mut |done, total| steps.push((done, total)));
    (made, steps)
}

fn drawn(count: usize, most: u64, random: &mut Random) -> Vec<u64> {
    (0..count).map(|_| random.next() % most).collect()
}

#[test]
fn matrices_level_by_level() {
    let mut random = Random(91);
    for (count, width) in [(0, 1), (0, 64), (1, 3), (2, 64), (63, 8), (1000, 13), (600, 64)] {
        let numbers = drawn(count, u64::MAX >> (64 - width), &mut random);
        for (quarters, hints) in [(false, false), (true, false), (false, true), (true, true)] {
            let (made, steps) = told(|it| WaveletMatrix::build_with_progress(&numbers, width, quarters, hints, it));
            let plain = match (quarters, hints) {
                (_, true) => WaveletMatrix::build_with_hints(&numbers, width, quarters),
                (true, false) => WaveletMatrix::build_with_quarters(&numbers, width),
                (false, false) => WaveletMatrix::build_with(&numbers, width),
            };
            assert_eq!(made.expect("numbers").into_owner(), plain.expect("numbers").into_owner());
            let width = width as usize;
            assert!(steps.into_iter().eq((1..=width).map(|done| (done, width))));
        }
    }
}

#[test]
fn matrices_that_are_refused_say_no_step() {
    let (made, steps) = told(|it| WaveletMatrix::build_with_progress(&[1, 7, 300, 9], 8, false, false, it));
    let why = BuildError::TooWide { index: 2, number: 300, width: 8 };
    assert_eq!((made.err(), steps), (Some(why), vec![]));
    let (made, steps) = told(|it| WaveletMatrix::build_with_progress(&[1], 65, false, true, it));
    assert_eq!((made.err(), steps), (Some(BuildError::WrongWidth { width: 65 }), vec![]));
}

#[test]
fn texts_in_two_steps() {
    for text in ["", "a", "banana", "she sells sea shells on the sea shore"] {
        let (made, steps) = told(|it| TextIndex::build_with_progress(text.as_bytes(), 3, it));
        let plain = TextIndex::build(text.as_bytes(), 3).expect("a text");
        assert_eq!((made.expect("a text").into_owner(), steps), (plain.into_owner(), vec![(1, 2), (2, 2)]));
        let letters: Vec<u64> = text.bytes().map(u64::from).collect();
        let (made, steps) = told(|it| TextIndex::build_of_letters_with_progress(&letters, 300, 3, it));
        let plain = TextIndex::build_of_letters(&letters, 300, 3).expect("a text");
        assert_eq!((made.expect("a text").into_owner(), steps), (plain.into_owner(), vec![(1, 2), (2, 2)]));
    }
    let (made, steps) = told(|it| TextIndex::build_of_letters_with_progress(&[1, 0, 5, 3], 3, 32, it));
    let why = BuildError::LetterOutside { index: 2, letter: 5, letters: 3 };
    assert_eq!((made.err(), steps), (Some(why), vec![]));
    let (made, steps) = told(|it| TextIndex::build_with_progress(b"banana", 0, it));
    assert_eq!((made.err(), steps), (Some(BuildError::WrongStep), vec![]));
}

/// More keys have a number each time, and at last all.
fn as_keys_get_numbers(steps: &Steps, keys: usize) {
    assert!(steps.windows(2).all(|it| it[0].0 <= it[1].0) && steps.iter().all(|it| it.1 == keys));
    assert_eq!(steps.iter().filter(|it| **it == (keys, keys)).count(), 1);
    assert_eq!(steps.last(), Some(&(keys, keys)));
}

#[test]
fn hashes_level_by_level() {
    let mut random = Random(92);
    for (keys, percent) in [(0, 100), (1, 100), (2, 0), (1000, 50), (1000, 200), (20_000, 100)] {
        let hashes = drawn(keys, u64::MAX, &mut random);
        let (made, steps) = told(|it| PerfectHash::build_with_progress(hashes.clone(), percent, it));
        let (made, plain) = (made.expect("no two are equal"), PerfectHash::build_with(hashes.clone(), percent));
        let plain = plain.expect("no two are equal");
        assert!(
            hashes.iter().all(|it| made.get(*it) == plain.get(*it)) && made.size_in_bytes() == plain.size_in_bytes()
        );
        as_keys_get_numbers(&steps, keys);
        let (made, steps) = told(|it| SeededHash::build_with_progress(hashes.clone(), percent, 20, 9, it));
        let plain = SeededHash::build_with(hashes, percent, 20, 9).expect("no two are equal");
        assert_eq!(made.expect("no two are equal").into_owner(), plain.into_owner());
        as_keys_get_numbers(&steps, keys);
    }
}

#[test]
fn hashes_of_keys_level_by_level() {
    for keys in [0, 1, 2, 1000] {
        for tries in [None, Some(20)] {
            let options = KeyOptions { tries, ..KeyOptions::default() };
            let (made, steps) = told(|it| KeyHash::build_with_progress(0..keys, options, it));
            let plain = KeyHash::build_with(0..keys, options).expect("no two are equal");
            assert_eq!(made.expect("no two are equal").into_owner(), plain.into_owner());
            as_keys_get_numbers(&steps, keys);
        }
    }
}

#[test]
fn equal_hashes_never_say_that_all_is_done() {
    let equal = |left, hash| Some(BuildError::EqualHashes { left, pair: EqualPair::Hashes { hash } });
    let (made, steps) = told(|it| PerfectHash::build_with_progress(vec![5, 7, 9, 7], 100, it));
    assert_eq!((made.err(), steps.len(), steps[255]), (equal(2, 7), 256, (2, 4)));
    let (made, steps) = told(|it| SeededHash::build_with_progress(vec![7; 300], 100, 3, 0, it));
    assert_eq!((made.err(), steps.is_empty()), (equal(300, 7), false));
    assert!(steps.iter().all(|it| *it == (0, 300)));
}

/// Panics at a step.
fn panics_at(step: usize) -> impl FnMut(usize, usize) {
    let mut called = 0;
    move |_, _| {
        called += 1;
        assert!(called <= step, "enough");
    }
}

#[test]
fn a_callback_that_panics_ends_the_build() {
    let hashes = || drawn(2000, u64::MAX, &mut Random(93));
    for step in 0..2 {
        assert_eq!(says(|| drop(PerfectHash::build_with_progress(hashes(), 100, panics_at(step)))), "enough");
        assert_eq!(says(|| drop(SeededHash::build_with_progress(hashes(), 100, 9, 0, panics_at(step)))), "enough");
        let keys = || KeyHash::build_with_progress(0..2000, KeyOptions::default(), panics_at(step));
        assert_eq!(says(|| drop(keys())), "enough");
        assert_eq!(says(|| drop(TextIndex::build_with_progress(b"banana", 2, panics_at(step)))), "enough");
        let matrix = || WaveletMatrix::build_with_progress(&[3, 1, 4], 3, true, true, panics_at(step));
        assert_eq!(says(|| drop(matrix())), "enough");
    }
}

#[test]
fn a_callback_may_build_and_query() {
    let mut inside = vec![];
    let outside = WaveletMatrix::build_with_progress(&[3, 1, 4], 3, false, true, |done, _| {
        let other = WaveletMatrix::build_with_progress(&[7; 9], 3, false, false, |_, _| ()).expect("numbers");
        inside.push((done, other.count(7), bitm_proved::Index::build([7u64]).count_ones()));
    });
    assert_eq!(outside.expect("numbers").get(2), Some(4));
    assert_eq!(inside, [(1, 9, 3), (2, 9, 3), (3, 9, 3)]);
    let kept = catch_unwind(AssertUnwindSafe(|| inside.len()));
    assert_eq!(kept.ok(), Some(3));
}
