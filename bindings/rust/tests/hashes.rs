//! Perfect hashes: numbers of their own for any keys, lists, equal hashes, and levels of several sizes.
mod common;
use bitm_proved::{BuildError, EqualPair, ListError, PerfectHash, NO_ANSWER};
use common::Random;

#[test]
fn each_key_has_a_number_of_its_own() {
    let mut random = Random(14);
    for keys in [0usize, 1, 2, 10, 1000, 50_000] {
        for percent in [0, 50, 100, 200, 1000] {
            let hashes: Vec<u64> = (0..keys).map(|_| random.next()).collect();
            let made = PerfectHash::build_with(hashes.clone(), percent).expect("no two are equal");
            let mut numbers: Vec<usize> = hashes.iter().map(|it| made.get(*it).expect("a key")).collect();
            let mut out = vec![0; keys];
            assert_eq!((made.get_list(&hashes, &mut out), &out), (Ok(0), &numbers));
            numbers.sort();
            assert!(numbers.into_iter().eq(0..keys));
            assert_eq!((made.len(), made.is_empty()), (keys, keys == 0));
            assert!(percent != 100 || keys < 50_000 || made.size_in_bytes() * 8 < 3 * keys);
            let others: Vec<u64> = (0..100).map(|_| random.next()).collect();
            let mut out = [0; 100];
            let missing = made.get_list(&others, &mut out).expect("right tables");
            assert_eq!(out.iter().filter(|it| **it == NO_ANSWER).count(), missing);
            assert!(out.iter().all(|it| *it == NO_ANSWER || *it < keys));
            let short = ListError::Lengths { queries: 100, room: 3 };
            assert_eq!(made.get_list(&others, &mut out[..3]), Err(short));
        }
    }
}

#[test]
fn equal_hashes_are_refused() {
    let mut random = Random(15);
    for keys in [2usize, 100, 10_000] {
        let mut hashes: Vec<u64> = (0..keys).map(|_| random.next()).collect();
        hashes[keys - 1] = hashes[0];
        let pair = EqualPair::Hashes { hash: hashes[0] };
        assert_eq!(PerfectHash::build(hashes).err(), Some(BuildError::EqualHashes { left: 2, pair }));
        let why = PerfectHash::build(vec![7; keys]).err();
        assert_eq!(why, Some(BuildError::EqualHashes { left: keys, pair: EqualPair::Hashes { hash: 7 } }));
    }
}
