//! Perfect hashes with seeds: numbers of their own for any keys, lists, equal hashes, owners, blocks that are spoilt or cut.
mod common;
use bitm_proved::{
    bytes_of, BuildError, Dictionary, EqualPair, Kind, ListError, PerfectHash, SeededHash, SeededHashView, StoredError,
    NO_ANSWER,
};
use common::{any_owner, other_kind, with_any_words, with_one_bit_changed, Random};
use std::panic::{RefUnwindSafe, UnwindSafe};
use std::sync::Arc;

fn drawn(count: usize, random: &mut Random) -> Vec<u64> {
    (0..count).map(|_| random.next()).collect()
}

/// Each hash has a number of its own, one by one and as a list; others have none, or one that is inside.
fn as_plain(found: &SeededHashView<'_>, hashes: &[u64]) {
    let keys = hashes.len();
    assert_eq!((found.len(), found.is_empty(), found.check()), (keys, keys == 0, true));
    let mut numbers: Vec<usize> = hashes.iter().map(|it| found.get(*it).expect("a key")).collect();
    let mut out = vec![0; keys];
    assert_eq!((found.get_list(hashes, &mut out), &out), (Ok(0), &numbers));
    assert!(hashes.iter().zip(&numbers).all(|(hash, number)| found.checked_get(*hash) == Ok(Some(*number))));
    numbers.sort();
    assert!(numbers.into_iter().eq(0..keys));
    let (others, mut out) = (drawn(100, &mut Random(keys as u64 + 1)), [0; 100]);
    let missing = found.get_list(&others, &mut out).expect("right tables");
    assert_eq!(out.iter().filter(|it| **it == NO_ANSWER).count(), missing);
    assert!(out.iter().all(|it| *it == NO_ANSWER || *it < keys));
    let short = ListError::Lengths { queries: 100, room: 3 };
    assert_eq!(found.get_list(&others, &mut out[..3]), Err(short));
}

#[test]
fn each_key_has_a_number_of_its_own() {
    let mut random = Random(81);
    for keys in [0usize, 1, 2, 10, 1000, 20_000] {
        for (percent, tries) in [(0, 3), (100, 0), (100, 64), (200, 1), (1000, 256)] {
            let hashes = drawn(keys, &mut random);
            let made = SeededHash::build_with(hashes.clone(), percent, tries, 9).expect("no two are equal");
            assert_eq!(made.seed(), 9);
            as_plain(made.view(), &hashes);
            as_plain(made.clone().view(), &hashes);
        }
    }
}

#[test]
fn seeds_save_memory() {
    let keys = 200_000; // of many keys 2.26 bits a key, and 2.8 without seeds
    let hashes = drawn(keys, &mut Random(82));
    let plain = PerfectHash::build(hashes.clone()).expect("any").size_in_bytes();
    let seeded = 8 * SeededHash::build(hashes.clone()).expect("any").block().len();
    assert!(80 * seeded < 23 * keys && 80 * plain > 28 * keys);
    let most = |tries| SeededHash::build_with(hashes[..500].to_vec(), 100, tries, 0).expect("any").into_owner();
    assert_eq!(most(256), most(u16::MAX)); // there are 256 seeds
}

#[test]
fn equal_hashes_are_refused() {
    let mut random = Random(83);
    for keys in [2usize, 100, 10_000] {
        let mut hashes = drawn(keys, &mut random);
        hashes[keys - 1] = hashes[0];
        let pair = EqualPair::Hashes { hash: hashes[0] };
        assert_eq!(SeededHash::build(hashes).err(), Some(BuildError::EqualHashes { left: 2, pair }));
        let why = SeededHash::build(vec![7; keys]).err();
        assert_eq!(why, Some(BuildError::EqualHashes { left: keys, pair: EqualPair::Hashes { hash: 7 } }));
    }
}

#[test]
fn any_owner_has_a_hash_in_its_words_or_bytes() {
    let hashes = drawn(300, &mut Random(84));
    let file = SeededHash::build(hashes.clone()).expect("any").into_owner();
    let look = |found: &SeededHashView<'_>| as_plain(found, &hashes);
    any_owner!(SeededHash, SeededHashView, file, "SeededHash { keys: 300 }", look);
}

#[test]
fn hashes_are_send_sync_and_unwind_safe() {
    fn all<T: Send + Sync + UnwindSafe + RefUnwindSafe>() {}
    all::<(SeededHash, SeededHash<Arc<[u64]>>, SeededHash<&[u8]>, SeededHashView<'_>)>();
    let hashes = drawn(2000, &mut Random(85));
    let found = SeededHash::build(hashes.clone()).expect("any");
    std::thread::scope(|threads| {
        for _ in 0..4 {
            threads.spawn(|| as_plain(found.view(), &hashes));
        }
    });
}

/// Answers of a block that may hold anything: a number is inside, or there is an error.
fn held(found: &SeededHashView<'_>, hashes: &[u64]) {
    for hash in hashes {
        assert!(found.checked_get(*hash).map_or(true, |it| it.is_none_or(|it| it < found.len())));
    }
    let mut out = vec![0; hashes.len()];
    let listed = found.get_list(hashes, &mut out);
    assert!(matches!(listed, Ok(_) | Err(ListError::WrongTables { .. })));
}

#[test]
fn each_changed_word_is_seen_and_never_leads_outside() {
    let mut random = Random(86);
    let hashes = drawn(60, &mut random);
    let good = SeededHash::build(hashes.clone()).expect("any").into_owner();
    with_one_bit_changed(&good, 3, |block, in_header| match SeededHashView::from_words(block) {
        Err(why) => assert_eq!((why, in_header), (StoredError::NotWhole, true)),
        Ok(found) => {
            assert!(!found.check() && !in_header);
            held(&found, &hashes);
        }
    });
    with_any_words(&good, &mut random, |block, _| held(&SeededHashView::from_words(block).expect("a header"), &hashes));
}

#[test]
fn files_that_are_cut_or_of_another_kind_are_refused() {
    let good = SeededHash::build(vec![5, 7, 9]).expect("any").into_owner();
    for end in 0..good.len() {
        assert_eq!(SeededHashView::from_words(&good[..end]).err(), Some(StoredError::NotWhole));
    }
    assert_eq!(SeededHash::from_bytes(&bytes_of(&good)[1..]).err(), Some(StoredError::Misaligned));
    assert_eq!(Dictionary::from_words(good).err(), other_kind(Kind::SeededHash, Kind::Dictionary));
    let other = Dictionary::build(&[4, 9]).expect("any").into_owner();
    assert_eq!(SeededHash::from_words(other).err(), other_kind(Kind::Dictionary, Kind::SeededHash));
    // it has no seeds
}
