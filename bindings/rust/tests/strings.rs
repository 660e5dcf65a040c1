//! Strings beside plain lists; strings that are refused, owners, blocks that are spoilt or cut.
mod common;
use bitm_proved::{bytes_of, BuildError, Dictionary, EqualPair, Kind, StoredError, Strings, StringsView};
use common::{any_owner, other_kind, with_any_words, with_one_bit_changed, Random};
use std::collections::BTreeSet;
use std::panic::{RefUnwindSafe, UnwindSafe};
use std::sync::Arc;

fn drawn(count: usize, longest: u64, random: &mut Random) -> Vec<Vec<u8>> {
    let mut all = BTreeSet::new();
    while all.len() < count {
        let len = random.next() % (longest + 1);
        all.insert((0..len).map(|_| (random.next() >> 40) as u8).collect());
    }
    all.into_iter().collect()
}

/// Each string has a number of its own, whose string it is, and what is none of them has none. They are in order.
fn as_plain(found: &StringsView<'_>, all: &[Vec<u8>]) {
    assert_eq!((found.len(), found.is_empty(), found.check()), (all.len(), all.is_empty(), true));
    let mut kept: Vec<&[u8]> = (0..found.len()).map(|it| found.get(it).unwrap()).collect();
    kept.sort();
    assert_eq!(kept, all);
    assert_eq!((found.get(all.len()), found.get(usize::MAX)), (None, None));
    for string in all {
        let (mut longer, shorter) = (string.clone(), &string[..string.len() / 2]);
        longer.push(0);
        for asked in [&string[..], &longer, shorter] {
            let number = found.find(asked);
            let is = all.binary_search_by(|it| it[..].cmp(asked)).is_ok();
            assert_eq!((number.is_some(), found.contains(asked)), (is, is));
            assert!(number.is_none_or(|it| found.get(it) == Some(asked)));
            assert_eq!(found.checked_find(asked), Ok(number));
        }
    }
}

#[test]
fn answers_are_those_of_plain_lists() {
    let mut random = Random(71);
    let mut lists = vec![vec![], vec![vec![]], vec![b"ada".to_vec(), b"bob".to_vec(), b"eve".to_vec()]];
    lists.extend((1..20).map(|it| drawn(it * it, it as u64 + 2, &mut random)));
    lists.push(drawn(3000, 12, &mut random));
    for all in lists {
        let found = Strings::build(&all).expect("any");
        as_plain(found.view(), &all);
        as_plain(found.clone().view(), &all);
        let other = Strings::build_with(&all, 200, u64::MAX - 3).expect("any");
        assert_eq!(other.seed(), u64::MAX - 3);
        as_plain(other.view(), &all);
    }
}

#[test]
fn strings_that_are_refused() {
    let equal = |first, second| EqualPair::Strings { first, second };
    for (strings, left, pair) in [
        (&["ada", "bob", "ada"][..], 2, equal(0, 2)),
        (&["", ""], 2, equal(0, 1)),
        (&["eve", "ada", "bob", "bob", "ada", "bob"], 5, equal(1, 4)),
    ] {
        let why = Strings::build_with(strings, 100, 7).err();
        assert_eq!(why, Some(BuildError::EqualHashes { left, pair }));
    }
    assert_eq!(equal(0, 2).to_string(), "strings 0 and 2 are equal");
    assert_eq!(Strings::build(&["ada", "bob", ""]).err(), None);
}

#[test]
fn any_owner_has_strings_in_its_words_or_bytes() {
    let all = drawn(300, 9, &mut Random(72));
    let file = Strings::build(&all).expect("any").into_owner();
    let look = |found: &StringsView<'_>| as_plain(found, &all);
    any_owner!(Strings, StringsView, file, "Strings { strings: 300 }", look);
}

#[test]
fn strings_are_send_sync_and_unwind_safe() {
    fn all<T: Send + Sync + UnwindSafe + RefUnwindSafe>() {}
    all::<(Strings, Strings<Arc<[u64]>>, Strings<&[u8]>, StringsView<'_>)>();
    let plain = drawn(2000, 12, &mut Random(74));
    let found = Strings::build(&plain).expect("any");
    std::thread::scope(|threads| {
        for _ in 0..4 {
            threads.spawn(|| plain.iter().for_each(|it| assert_eq!(found.get(found.find(it).unwrap()), Some(&it[..]))));
        }
    });
}

/// Answers of a block that may hold anything: the string stands at the number that is found, or there is an error.
fn held(found: &StringsView<'_>, all: &[Vec<u8>]) {
    for string in all {
        let number = found.checked_find(string);
        assert!(number.map_or(true, |it| it.is_none_or(|it| found.checked_get(it) == Ok(Some(&string[..])))));
    }
    let whole = 8 * found.block().len();
    for number in 0..found.len().min(100) {
        assert!(found.checked_get(number).map_or(true, |it| it.is_some_and(|it| it.len() <= whole)));
    }
}

#[test]
fn each_changed_word_is_seen_and_never_leads_to_another_string() {
    let mut random = Random(75);
    let all = drawn(60, 9, &mut random);
    let good = Strings::build(&all).expect("any").into_owner();
    with_one_bit_changed(&good, 3, |block, _| match StringsView::from_words(block) {
        Err(why) => assert_eq!(why, StoredError::NotWhole),
        Ok(found) => {
            assert!(!found.check());
            held(&found, &all);
        }
    });
    with_any_words(&good, &mut random, |block, _| {
        if let Ok(found) = StringsView::from_words(block) {
            held(&found, &all);
        }
    });
}

#[test]
fn files_that_are_cut_or_of_another_kind_are_refused() {
    let good = Strings::build(&["ada", "bob", "eve"]).expect("any").into_owner();
    for end in 0..good.len() {
        assert_eq!(StringsView::from_words(&good[..end]).err(), Some(StoredError::NotWhole));
    }
    assert_eq!(Strings::from_bytes(&bytes_of(&good)[1..]).err(), Some(StoredError::Misaligned));
    assert_eq!(Dictionary::from_words(good).err(), other_kind(Kind::Strings, Kind::Dictionary));
    let other = Dictionary::build(&[4, 9]).expect("any").into_owner();
    assert_eq!(Strings::from_words(other).err(), other_kind(Kind::Dictionary, Kind::Strings));
}
