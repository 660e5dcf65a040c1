//! Dictionaries beside plain lists of keys; keys that are refused, lists of queries, owners, blocks that are spoilt or cut.
mod common;
use bitm_proved::{
    bytes_of, BuildError, Dictionary, DictionaryView, EqualPair, Kind, ListError, SparseBits, SparseBitsView,
    StoredError, Tree, NO_ANSWER,
};
use common::{any_owner, other_kind, with_any_words, with_one_bit_changed, Random};
use std::collections::BTreeSet;
use std::panic::{RefUnwindSafe, UnwindSafe};
use std::sync::Arc;

fn drawn(count: usize, bits: u32, random: &mut Random) -> Vec<u64> {
    let mut keys = BTreeSet::new();
    while keys.len() < count {
        keys.insert(random.next() >> (64 - bits));
    }
    keys.into_iter().collect()
}

fn asked_of(keys: &[u64], random: &mut Random) -> Vec<u64> {
    let mut asked = vec![0, 1, u64::MAX, u64::MAX - 1, 1 << 63, random.next()];
    for key in keys.iter().take(300) {
        asked.extend([key.wrapping_sub(1), *key, key.wrapping_add(1)]);
    }
    asked
}

/// Each key has a number of its own, at which it stands, and what is no key has none. The keys are in order.
fn as_plain(found: &DictionaryView<'_>, keys: &[u64], random: &mut Random) {
    assert_eq!((found.len(), found.is_empty(), found.check()), (keys.len(), keys.is_empty(), true));
    let mut kept = found.keys().to_vec();
    kept.sort();
    assert_eq!(kept, keys);
    for key in asked_of(keys, random) {
        let number = found.find(key);
        assert_eq!((number.is_some(), found.contains(key)), (keys.binary_search(&key).is_ok(), number.is_some()));
        assert!(number.is_none_or(|it| found.keys()[it] == key));
        assert_eq!(found.checked_find(key), Ok(number));
    }
}

fn lists(found: &Dictionary, keys: &[u64], random: &mut Random) {
    let asked = asked_of(keys, random);
    let mut out = vec![9; asked.len()];
    let wanted: Vec<usize> = asked.iter().map(|key| found.find(*key).unwrap_or(NO_ANSWER)).collect();
    let missing = wanted.iter().filter(|it| **it == NO_ANSWER).count();
    assert_eq!((found.find_list(&asked, &mut out), &out), (Ok(missing), &wanted));
    let short = ListError::Lengths { queries: asked.len(), room: asked.len() - 1 };
    assert_eq!(found.find_list(&asked, &mut out[1..]), Err(short));
    assert_eq!(found.find_list(&[], &mut []), Ok(0));
}

#[test]
fn answers_are_those_of_plain_lists() {
    let mut random = Random(61);
    let mut all = vec![vec![], vec![0], vec![u64::MAX], vec![0, 1, u64::MAX - 1, u64::MAX], vec![4, 9, 49]];
    all.extend((1..20).map(|it| drawn(it * it, 12 + it as u32, &mut random)));
    all.push(drawn(5000, 64, &mut random));
    for keys in all {
        let found = Dictionary::build(&keys).expect("any");
        as_plain(found.view(), &keys, &mut random);
        as_plain(found.clone().view(), &keys, &mut random);
        lists(&found, &keys, &mut random);
        let other = Dictionary::build_with(&keys, 200, u64::MAX - 3).expect("any");
        assert_eq!(other.seed(), u64::MAX - 3);
        as_plain(other.view(), &keys, &mut random);
    }
}

#[test]
fn keys_that_are_refused() {
    let build = |keys: &[u64]| Dictionary::build(keys).err();
    let equal = |left, (first, second)| BuildError::EqualHashes { left, pair: EqualPair::Keys { first, second } };
    assert_eq!(build(&[5, 9, 5]), Some(equal(2, (0, 2))));
    assert_eq!(build(&[7, 7, 7]), Some(equal(3, (0, 1))));
    assert_eq!(build(&[1, 9, 5, 5, 9, 2]), Some(equal(4, (1, 4))));
    assert_eq!(build(&[5, 9, 5]).unwrap().to_string(), "keys 0 and 2 are equal");
    let seeded = Dictionary::build_with(&[3, u64::MAX, u64::MAX], 100, 9).err();
    assert_eq!(seeded, Some(equal(2, (1, 2))));
    assert_eq!(build(&[9, 5]), None);
}

#[test]
fn any_owner_has_a_dictionary_in_its_words_or_bytes() {
    let keys = drawn(300, 60, &mut Random(62));
    let file = Dictionary::build(&keys).expect("any").into_owner();
    let look = |found: &DictionaryView<'_>| as_plain(found, &keys, &mut Random(63));
    any_owner!(Dictionary, DictionaryView, file, "Dictionary { keys: 300 }", look);
}

#[test]
fn dictionaries_are_send_sync_and_unwind_safe() {
    fn all<T: Send + Sync + UnwindSafe + RefUnwindSafe>() {}
    all::<(Dictionary, Dictionary<Arc<[u64]>>, Dictionary<&[u8]>, DictionaryView<'_>)>();
    let keys = drawn(2000, 64, &mut Random(64));
    let found = Dictionary::build(&keys).expect("any");
    std::thread::scope(|threads| {
        for _ in 0..4 {
            threads.spawn(|| keys.iter().for_each(|key| assert_eq!(found.keys()[found.find(*key).unwrap()], *key)));
        }
    });
}

/// Answers of a block that may hold anything: the key stands at the number that is found, or there is an error.
fn held(found: &DictionaryView<'_>, keys: &[u64]) {
    for key in keys.iter().chain(found.keys()) {
        assert!(found.checked_find(*key).map_or(true, |it| it.is_none_or(|it| found.keys()[it] == *key)));
    }
}

#[test]
fn each_changed_word_is_seen_and_never_leads_to_another_key() {
    let mut random = Random(65);
    let keys = drawn(60, 50, &mut random);
    let good = Dictionary::build(&keys).expect("any").into_owner();
    with_one_bit_changed(&good, 3, |block, in_header| match DictionaryView::from_words(block) {
        Err(why) => assert_eq!((why, in_header), (StoredError::NotWhole, true)),
        Ok(found) => {
            assert!(!in_header && !found.check());
            held(&found, &keys);
        }
    });
    with_any_words(&good, &mut random, |block, _| {
        held(&DictionaryView::from_words(block).expect("the header is right"), &keys);
    });
}

#[test]
fn files_that_are_cut_or_of_another_kind_are_refused() {
    let good = Dictionary::build(&[4, 9, 49]).expect("any").into_owner();
    for end in 0..good.len() {
        assert_eq!(DictionaryView::from_words(&good[..end]).err(), Some(StoredError::NotWhole));
    }
    assert_eq!(Dictionary::from_bytes(&bytes_of(&good)[1..]).err(), Some(StoredError::Misaligned));
    assert_eq!(SparseBitsView::from_words(&good).err(), other_kind(Kind::Dictionary, Kind::SparseBits));
    let bits = SparseBits::build(&[1, 3], 9).expect("bits").into_owner();
    assert_eq!(Dictionary::from_words(bits).err(), other_kind(Kind::SparseBits, Kind::Dictionary));
    let tree = Tree::build(&[1, 0]).expect("a tree").into_owner();
    assert_eq!(Dictionary::from_words(tree).err(), other_kind(Kind::Tree, Kind::Dictionary));
}
