//! Perfect hashes of keys: numbers of their own for keys of each kind, the blocks that Python wrote, equal keys, owners,
//! blocks that are spoilt or cut.
mod common;
use bitm_proved::{
    bytes_of, sections, words_from_bytes, BuildError, EqualPair, Key, KeyHash, KeyHashView, KeyOptions, Kind,
    ListError, SeededHash, StoredError, NO_ANSWER,
};
use common::{any_owner, first_section, other_kind, with_any_words, with_one_bit_changed, Random};
use std::panic::{RefUnwindSafe, UnwindSafe};
use std::sync::Arc;

fn options(bits: u32, percent: u32, tries: Option<u16>, seed: Option<u64>) -> KeyOptions {
    KeyOptions { bits, percent, tries, seed }
}

/// The keys of `keys.blocks`.
const KEYS: [Key<'_>; 14] = [
    Key::Text(""),
    Key::Text("ada"),
    Key::Text("na\u{ef}ve \u{1f600}"),
    Key::Bytes(b""),
    Key::Bytes(b"ada"),
    Key::Number(0),
    Key::Number(-1),
    Key::Number(i64::MAX as i128),
    Key::Number(i64::MIN as i128),
    Key::Number(1 << 63),
    Key::Number(u64::MAX as i128),
    Key::Number(i64::MIN as i128 - 1),
    Key::Number(i128::MAX),
    Key::Number(i128::MIN),
];

/// The blocks that Python's `PerfectHash` wrote of these keys, one after another, with its options and its numbers:
/// `PerfectHash(keys)`; `seed=1, bits=32, percent=200`; `seed=1, tries=64, bits=5`; `seed=2**64-1, tries=256, bits=0`.
const BLOCKS: &[u8] = include_bytes!("common/keys.blocks");

fn of_python() -> Vec<(Vec<u64>, KeyOptions, [usize; 14])> {
    let (words, mut at) = (words_from_bytes(BLOCKS).expect("memory"), 0);
    let mut next = || {
        let block = words[at..][..(words[at + 2] / 8) as usize].to_vec();
        at += block.len();
        block
    };
    vec![
        (next(), options(16, 100, None, Some(0)), [13, 11, 6, 9, 4, 7, 0, 12, 8, 1, 2, 5, 10, 3]),
        (next(), options(32, 200, None, None), [13, 6, 4, 0, 10, 2, 9, 11, 12, 7, 1, 8, 5, 3]),
        (next(), options(5, 100, Some(64), None), [0, 7, 4, 12, 1, 6, 3, 5, 2, 9, 8, 13, 11, 10]),
        (next(), options(0, 100, Some(256), Some(u64::MAX)), [3, 7, 10, 4, 2, 11, 5, 1, 13, 8, 6, 12, 0, 9]),
    ]
}

#[test]
fn blocks_of_python_answer_as_there() {
    for (block, options, numbers) in of_python() {
        let found = KeyHashView::from_words(&block).expect("a hash of keys");
        assert!(found.check() && (found.len(), found.bits()) == (14, options.bits));
        assert_eq!((found.has_seeds(), found.seed()), (options.tries.is_some(), options.seed.unwrap_or(1)));
        assert!(KEYS.iter().zip(numbers).all(|(key, number)| found.get(key) == Some(number)));
        let mut out = [0; 14];
        assert_eq!((found.get_list(&KEYS, &mut out), out), (Ok(0), numbers));
    }
}

#[test]
fn the_bytes_are_those_of_python() {
    for (block, options, _) in of_python() {
        assert_eq!(KeyHash::build_with(KEYS, options).expect("keys").block(), block);
        let mut steps = vec![];
        let made = KeyHash::build_with_progress(KEYS, options, |done, total| steps.push((done, total))).expect("keys");
        assert_eq!((made.block(), steps.last()), (&block[..], Some(&(14, 14))));
    }
}

/// Each key has a number of its own, one by one and as a list.
fn as_plain(found: &KeyHashView<'_>, keys: &[u64]) {
    assert_eq!((found.len(), found.is_empty(), found.check()), (keys.len(), keys.is_empty(), true));
    let mut numbers: Vec<usize> = keys.iter().map(|it| found.get(it).expect("a key")).collect();
    let mut out = vec![0; keys.len()];
    assert_eq!((found.get_list(keys, &mut out), &out), (Ok(0), &numbers));
    assert!(keys.iter().zip(&numbers).all(|(key, number)| found.checked_get(*key) == Ok(Some(*number))));
    numbers.sort();
    assert!(numbers.into_iter().eq(0..keys.len()));
}

#[test]
fn each_key_has_a_number_of_its_own() {
    for keys in [0u64, 1, 2, 127, 128, 129, 20_000] {
        let keys: Vec<u64> = (0..keys).map(|it| it.wrapping_mul(0x9E37_79B9_7F4A_7C15)).collect();
        for bits in [0, 1, 16, 31, 32] {
            let made = KeyHash::build_with(&keys, options(bits, 100, None, None)).expect("no two are equal");
            as_plain(made.view(), &keys);
            as_plain(made.clone().view(), &keys);
        }
    }
}

#[test]
fn what_is_no_key_is_told_by_its_fingerprint() {
    let names: Vec<String> = (0..1000).map(|it| format!("name {it}")).collect();
    let made = KeyHash::build(&names).expect("keys");
    let (others, mut out): (Vec<String>, _) =
        ((1000..11_000).map(|it| format!("name {it}")).collect(), vec![0; 10_000]);
    let missing = made.get_list(&others, &mut out).expect("right tables");
    assert!(missing > 9_990); // all but one in 2^16
    assert_eq!(out.iter().filter(|it| **it == NO_ANSWER).count(), missing);
    assert!(others.iter().zip(&out).all(|(key, number)| made.get(key).unwrap_or(NO_ANSWER) == *number));
    let short = ListError::Lengths { queries: 10_000, room: 3 };
    assert_eq!(made.get_list(&others, &mut out[..3]), Err(short));
}

#[test]
fn keys_of_each_type() {
    let (text, bytes) = (String::from("ada"), b"ada".to_vec());
    let made = KeyHash::build([Key::from("ada"), Key::from(b"ada"), Key::from(7), Key::from(-7)]).expect("keys");
    let numbers = ["ada".into(), Key::Bytes(b"ada"), Key::Number(7), Key::Number(-7)].map(|it| made.get(it));
    let (of_text, of_bytes, of_number): (&&str, &&[u8; 3], &u8) = (&"ada", &b"ada", &7);
    assert_eq!([made.get(&text), made.get(&text[..]), made.get(of_text)], [numbers[0]; 3]);
    assert_eq!([made.get(&bytes), made.get(&bytes[..]), made.get(b"ada"), made.get(of_bytes)], [numbers[1]; 4]);
    let of_seven =
        [made.get(7u8), made.get(7u16), made.get(7u32), made.get(7u64), made.get(7usize), made.get(of_number)];
    assert_eq!(of_seven, [numbers[2]; 6]);
    let negative =
        [made.get(-7i8), made.get(-7i16), made.get(-7), made.get(-7i64), made.get(-7isize), made.get(-7i128)];
    assert_eq!(negative, [numbers[3]; 6]);
    let mut sorted = numbers.map(|it| it.expect("a key"));
    sorted.sort();
    assert_eq!(sorted, [0, 1, 2, 3]);
}

#[test]
fn equal_keys_are_named() {
    let refused = |keys: &[&str], options| KeyHash::build_with(keys, options).err();
    let equal = |left, first, second| Some(BuildError::EqualHashes { left, pair: EqualPair::Keys { first, second } });
    for tries in [None, Some(8)] {
        let options = options(16, 100, tries, None);
        assert_eq!(refused(&["ada", "bob", "ada"], options), equal(2, 0, 2));
        assert_eq!(refused(&["eve", "ada", "bob", "bob", "ada", "bob"], options), equal(5, 1, 4));
        let steps = KeyHash::build_with_progress([5, 7, 9, 7], options, |done, total| assert!(done < total));
        assert_eq!(steps.err(), equal(2, 1, 3));
    }
    assert_eq!(KeyHash::build([5i128, 7, 5]).unwrap_err().to_string(), "keys 0 and 2 are equal");
    let wider = refused(&["ada"], options(33, 100, None, None)).expect("33 bits");
    assert_eq!(wider, BuildError::WrongBits { bits: 33 });
    assert_eq!(wider.to_string(), "a fingerprint has 0 to 32 bits, not 33");
}

/// Yields other keys each time that it is cloned.
struct Fickle<'a>(&'a std::cell::Cell<u64>);

impl Clone for Fickle<'_> {
    fn clone(&self) -> Self {
        self.0.set(self.0.get() + 1);
        Fickle(self.0)
    }
}

impl IntoIterator for Fickle<'_> {
    type Item = u64;
    type IntoIter = std::vec::IntoIter<u64>;
    fn into_iter(self) -> Self::IntoIter {
        let list = if self.0.get() == 1 { vec![5, 7, 5] } else { vec![self.0.get()] };
        list.into_iter()
    }
}

#[test]
fn keys_that_change_are_never_read_outside() {
    let turn = std::cell::Cell::new(0);
    let why = KeyHash::build(Fickle(&turn)).map(|it| it.len());
    assert!(matches!(why, Ok(1) | Err(BuildError::EqualHashes { .. })), "{why:?}");
}

#[test]
fn any_owner_has_a_hash_in_its_words_or_bytes() {
    let keys: Vec<u64> = (0..300).collect();
    let file = KeyHash::build(&keys).expect("any").into_owner();
    let look = |found: &KeyHashView<'_>| as_plain(found, &keys);
    any_owner!(KeyHash, KeyHashView, file, "KeyHash { keys: 300, width: 16 }", look);
}

#[test]
fn hashes_are_send_sync_and_unwind_safe() {
    fn all<T: Send + Sync + UnwindSafe + RefUnwindSafe>() {}
    all::<(KeyHash, KeyHash<Arc<[u64]>>, KeyHash<&[u8]>, KeyHashView<'_>)>();
}

/// Answers of a block that may hold anything: a number is inside, or there is an error.
fn held(found: &KeyHashView<'_>, keys: &[u64]) {
    assert!(keys.iter().all(|key| found.checked_get(key).map_or(true, |it| it.is_none_or(|it| it < found.len()))));
    let mut out = vec![0; keys.len()];
    assert!(matches!(found.get_list(keys, &mut out), Ok(_) | Err(ListError::WrongTables { .. })));
}

#[test]
fn each_changed_word_is_seen_and_never_leads_outside() {
    let keys: Vec<u64> = (0..60).collect();
    for tries in [None, Some(9)] {
        let good = KeyHash::build_with(&keys, options(16, 100, tries, None)).expect("any").into_owner();
        with_one_bit_changed(&good, 3, |block, in_header| match KeyHashView::from_words(block) {
            Err(why) => assert!(!in_header || why == StoredError::NotWhole),
            Ok(found) => {
                assert!(!found.check() && !in_header);
                held(&found, &keys);
            }
        });
        with_any_words(&good, &mut Random(87), |block, _| {
            if let Ok(found) = KeyHashView::from_words(block) {
                held(&found, &keys);
            }
        });
        for end in 0..good.len() {
            assert_eq!(KeyHashView::from_words(&good[..end]).err(), Some(StoredError::NotWhole));
        }
        assert_eq!(KeyHash::from_bytes(&bytes_of(&good)[1..]).err(), Some(StoredError::Misaligned));
    }
}

/// The role of the fingerprints of keys that are hashed here.
const ROLE: u64 = 0x3273_6168_6d74_6962;

#[test]
fn a_hash_without_fingerprints_that_fit_is_none_of_keys() {
    let made = SeededHash::build(vec![5, 7, 9]).expect("hashes");
    let refused = |block: &[u64]| KeyHash::from_words(block).err();
    assert_eq!(refused(made.block()), other_kind(Kind::SeededHash, Kind::KeyHash));
    let with = |role, count, words: &[u64]| sections::extended(made.block(), role, count, words).expect("a block");
    assert_eq!(refused(&with(ROLE, 16, &[21, 0])), None); // three fingerprints of 21 bits take a word
    let others = [
        with(ROLE, 16, &[22, 0]),
        with(ROLE, 16, &[0, 0]),
        with(ROLE, 15, &[21, 0]),
        with(ROLE, 0, &[]),
        with(ROLE, 8, &[64]),
        with(ROLE, 40, &[65, 0, 0, 0, 0]),
        with(ROLE, 16, &[u64::MAX, 0]),
        with(ROLE, 16, &[21 + (1 << 32), 0]),
        with(0x3173_6a68_6d74_6962, 16, &[21, 0]), // hashed by a function of earlier releases of JavaScript
    ];
    for block in others {
        assert_eq!(
            (refused(&block), Kind::of(&block)),
            (other_kind(Kind::SeededHash, Kind::KeyHash), Some(Kind::SeededHash))
        );
    }
    let plain = &of_python()[0].0;
    let mut of_others = plain.clone();
    of_others[first_section(plain)] ^= 1; // of the levels: its kind is told by its directory
    assert_eq!((Kind::of(&of_others), Kind::of(plain)), (Some(Kind::KeyHash), Some(Kind::KeyHash)));
}
