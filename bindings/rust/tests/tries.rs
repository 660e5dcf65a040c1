//! Tries beside a map of words, made of words and of parts; words that do not rise, parts of no trie, owners, blocks that are spoilt or cut.
mod common;
use bitm_proved::{bytes_of, BuildError, Kind, StoredError, Tree, Trie, TrieView, WrongTables};
use common::{any_owner, other_kind, says, with_any_words, with_one_bit_changed, Fickle, Random};
use std::collections::{BTreeMap, BTreeSet};
use std::panic::{RefUnwindSafe, UnwindSafe};
use std::sync::Arc;

/// A trie as a map from the beginnings of its words, shorter ones first, to the nodes.
struct Plain {
    nodes: BTreeMap<(usize, Vec<u64>), usize>,
    degrees: Vec<u64>,
    labels: Vec<u64>,
    ends: Vec<u64>,
    width: u32,
}

fn key(word: &[u64]) -> (usize, Vec<u64>) {
    (word.len(), word.to_vec())
}

fn plain_of(words: &[Vec<u64>], width: u32, has_ends: bool) -> Plain {
    let beginnings = words.iter().flat_map(|word| (0..=word.len()).map(|len| (key(&word[..len]), 0)));
    let mut nodes: BTreeMap<_, _> = beginnings.chain([(key(&[]), 0)]).collect();
    nodes.values_mut().enumerate().for_each(|(node, it)| *it = node);
    let (mut degrees, mut labels) = (vec![0; nodes.len()], Vec::new());
    for (_, word) in nodes.keys() {
        if let [before @ .., label] = &word[..] {
            labels.push(*label);
            degrees[nodes[&key(before)]] += 1;
        }
    }
    let mut ends = vec![0; if has_ends { nodes.len().div_ceil(64) } else { 0 }];
    for node in words.iter().map(|word| nodes[&key(word)]).filter(|_| has_ends) {
        ends[node / 64] |= 1 << (node % 64);
    }
    Plain { nodes, degrees, labels, ends, width }
}

/// Words of few different labels, so that they share beginnings.
fn drawn(count: usize, width: u32, has_ends: bool, random: &mut Random) -> Plain {
    let (kinds, most) = (4.min(1 << width.min(2)), (1 << width) - 1);
    let label = |random: &mut Random| match random.below(16) {
        0 => random.next() & most,
        _ => random.below(kinds) as u64,
    };
    let words: Vec<Vec<u64>> = (0..count).map(|_| (0..random.below(6)).map(|_| label(random)).collect()).collect();
    plain_of(&words, width, has_ends)
}

fn made(plain: &Plain) -> Trie {
    Trie::build(&plain.degrees, &plain.labels, plain.width, &plain.ends).expect("a trie")
}

fn word_as(trie: &TrieView<'_>, plain: &Plain, word: &[u64]) {
    let node = |len: usize| plain.nodes.get(&key(&word[..len])).copied();
    let longest = (0..=word.len()).rev().find_map(|len| node(len).map(|node| (node, len))).expect("the root");
    assert_eq!((trie.find_labels(word), trie.longest_labels(word)), (node(word.len()), longest));
    let bit = |node: usize| plain.ends.get(node / 64).is_some_and(|it| it >> (node % 64) & 1 == 1);
    let is_word = node(word.len()).is_some_and(bit);
    assert_eq!(trie.contains_labels(word), is_word);
    if let Ok(bytes) = word.iter().map(|label| u8::try_from(*label)).collect::<Result<Vec<u8>, _>>() {
        assert_eq!((trie.find(&bytes), trie.longest(&bytes)), (node(word.len()), longest));
        assert_eq!(trie.contains(&bytes), is_word);
    }
}

fn as_a_map(trie: &TrieView<'_>, plain: &Plain) {
    assert_eq!((trie.len(), trie.is_empty(), trie.check()), (plain.nodes.len(), false, true));
    assert_eq!((trie.width(), trie.has_ends()), (plain.width, !plain.ends.is_empty()));
    for ((len, word), node) in &plain.nodes {
        let (node, len) = (*node, *len);
        assert_eq!(trie.label(node), word.last().copied());
        assert_eq!(trie.is_end(node), plain.ends.get(node / 64).map(|it| it >> (node % 64) & 1 == 1));
        assert_eq!(trie.degree(node), Some(plain.degrees[node] as usize));
        assert_eq!(trie.parent(node), len.checked_sub(1).map(|last| plain.nodes[&key(&word[..last])]));
        for child in trie.children(node) {
            assert_eq!(trie.child_by_label(node, plain.labels[child - 1]), Some(child));
        }
        for room in [len + 2, len, len / 2] {
            let mut out = vec![9; room];
            assert_eq!(trie.word(node, &mut out), Ok(Some(len)));
            assert!(room < len || out == [vec![9; room - len], word.clone()].concat());
        }
        let mut other = word.clone();
        word_as(trie, plain, &other);
        for more in [node as u64 % 3, 1 << 50] {
            other.push(more);
            word_as(trie, plain, &other);
        }
        other[0] ^= 1;
        word_as(trie, plain, &other);
    }
    for node in [plain.nodes.len(), 1 << 63, usize::MAX] {
        assert_eq!((trie.label(node), trie.is_end(node), trie.child_by_label(node, 0)), (None, None, None));
        assert_eq!((trie.word(node, &mut []), trie.parent(node), trie.children(node)), (Ok(None), None, 0..0));
    }
}

#[test]
fn answers_are_those_of_a_map_of_words() {
    let mut random = Random(41);
    for turn in 0..25 {
        let width = [1, 2, 8, 13, 63][turn % 5];
        let plain = drawn(random.below(120), width, turn % 3 > 0, &mut random);
        let trie = made(&plain);
        as_a_map(trie.view(), &plain);
        as_a_map(TrieView::from_bytes(bytes_of(trie.block())).as_ref().expect("aligned"), &plain);
        as_a_map(trie.clone().view(), &plain);
    }
}

/// The trie of words is that of the parts in which they end.
fn of_words(words: &BTreeSet<Vec<u8>>) {
    let rising: Vec<&Vec<u8>> = words.iter().collect();
    let labels: Vec<Vec<u64>> = words.iter().map(|word| word.iter().map(|it| u64::from(*it)).collect()).collect();
    let (plain, trie) = (plain_of(&labels, 8, true), Trie::of_words(&rising).expect("they rise"));
    assert_eq!(trie.block(), made(&plain).block());
    as_a_map(trie.view(), &plain);
    assert!(words.iter().all(|word| trie.contains(word)));
}

#[test]
fn tries_of_words_have_these_words() {
    let mut random = Random(47);
    for turn in 0..40 {
        let letter = |random: &mut Random| if turn % 2 == 0 { random.below(256) as u8 } else { random.below(3) as u8 };
        let word = |random: &mut Random| (0..random.below(1 + turn % 7)).map(|_| letter(random)).collect();
        of_words(&(0..turn * turn / 3).map(|_| word(&mut random)).collect());
    }
    let (none, empty) = (Trie::of_words::<&str>(&[]).expect("a root"), Trie::of_words(&[""]).expect("a root"));
    assert_eq!((none.len(), none.contains(b""), none.has_ends(), none.find(b"")), (1, false, true, Some(0)));
    assert_eq!((empty.len(), empty.contains(b""), empty.contains(b"a"), empty.check()), (1, true, false, true));
    let zeros = Trie::of_words(&[&b"\0"[..], b"\0\0", b"a\0"]).expect("they rise");
    assert!(zeros.len() == 5 && zeros.contains(b"a\0") && !zeros.contains(b"a") && !zeros.contains(b"\0\0\0"));
    let texts = Trie::of_words(&["z".to_string(), "\u{e4}".to_string()]).expect("bytes have no sign");
    assert!(texts.contains("\u{e4}".as_bytes()) && !texts.contains("\u{e4}".as_bytes()[..1].as_ref()));
}

#[test]
fn a_trie_of_many_words() {
    let mut random = Random(48);
    let words: BTreeSet<String> = (0..100_000).map(|_| random.below(1_000_000).to_string()).collect();
    let trie = Trie::of_words(&words.iter().collect::<Vec<_>>()).expect("they rise");
    assert_eq!((0..trie.len()).filter(|node| trie.is_end(*node) == Some(true)).count(), words.len());
    let numbers = (0..1_000_000).step_by(7).map(|it| it.to_string());
    assert!(trie.check() && numbers.into_iter().all(|it| trie.contains(it.as_bytes()) == words.contains(&it)));
}

#[test]
fn words_that_do_not_rise_are_refused() {
    let refused: [(&[&str], usize); 6] = [
        (&["b", "a"], 1),
        (&["a", "a"], 1),
        (&["", ""], 1),
        (&["a", "b", "c", "bc"], 3),
        (&["a", "ab", "a"], 2),
        (&["z", "\u{e4}", "z"], 2),
    ];
    for (words, index) in refused {
        assert_eq!(Trie::of_words(words).err(), Some(BuildError::UnsortedWord { index }));
    }
    assert_eq!(BuildError::UnsortedWord { index: 2 }.to_string(), "word 2 does not stand after word 1");
}

#[test]
fn parts_of_no_trie_are_refused() {
    let (degrees, labels, ends) = ([2, 0, 1, 0], [97, 98, 101], [14]);
    assert!(Trie::build(&degrees, &labels, 8, &ends).is_ok() && Trie::build(&degrees, &labels, 8, &[]).is_ok());
    let refused = [
        (Trie::build(&degrees, &labels, 0, &ends), "a label has 1 to 63 bits, not 0"),
        (Trie::build(&degrees, &labels, 64, &ends), "a label has 1 to 63 bits, not 64"),
        (Trie::build(&degrees, &labels, 6, &ends), "label 0 (97) has more than 6 bits"),
        (Trie::build(&degrees, &[97, 98, 300], 8, &ends), "label 2 (300) has more than 8 bits"),
        (Trie::build(&degrees, &labels, 8, &[1, 2]), "the ends of 4 nodes have 2 words"),
        (
            Trie::build(&degrees, &labels[1..], 8, &ends),
            "there are 2 labels and 4 nodes, each of which has one but the root",
        ),
        (Trie::build(&degrees, &[98, 98, 101], 8, &ends), "label 1 (98) is not above label 0 (98)"),
        (Trie::build(&[1, 2, 0, 0], &[9, 8, 7], 8, &[]), "label 2 (7) is not above label 1 (8)"),
        (
            Trie::build(&[0, 1], &[1], 8, &[]),
            "node 1 is a child of no node before it, or has more children than there are nodes left",
        ),
        (Trie::build(&[], &[], 8, &[]), "there are no degrees: a tree has a root"),
    ];
    for (made, text) in refused {
        let why = made.expect_err(text);
        assert!(matches!(why, BuildError::NotATrie(_)));
        assert_eq!(why.to_string(), text);
    }
}

#[test]
fn any_owner_has_a_trie_in_its_words_or_bytes() {
    let plain = drawn(90, 8, true, &mut Random(42));
    let (file, shown) = (made(&plain).into_owner(), format!("Trie {{ nodes: {}, width: 8 }}", plain.nodes.len()));
    any_owner!(Trie, TrieView, file, &shown, |trie: &TrieView<'_>| as_a_map(trie, &plain));
}

#[test]
fn an_owner_that_borrows_other_words_does_no_harm() {
    let (plain, other) = (drawn(90, 8, true, &mut Random(43)), vec![1]);
    let trie = Trie::from_words(Fickle(made(&plain).into_owner(), other, false.into())).expect("the first words");
    as_a_map(trie.view(), &plain);
}

#[test]
fn tries_are_send_sync_and_unwind_safe() {
    fn all<T: Send + Sync + UnwindSafe + RefUnwindSafe>() {}
    all::<(Trie, Trie<Arc<[u64]>>, Trie<&[u8]>, TrieView<'_>)>();
    let plain = drawn(300, 8, true, &mut Random(44));
    let trie = made(&plain);
    std::thread::scope(|threads| {
        for _ in 0..4 {
            threads.spawn(|| as_a_map(trie.view(), &plain));
        }
    });
}

/// Answers of a block that may hold anything: inside, or an error. How many errors.
fn inside(trie: &TrieView<'_>) -> usize {
    let (len, mut wrong) = (trie.len(), 0);
    for node in 0..=len {
        let word = [node as u64 % 4, node as u64 % 3];
        let found = [
            trie.checked_child_by_label(node, word[0]),
            trie.checked_find_labels(&word),
            trie.checked_find(b"ab"),
            trie.checked_parent(node),
            trie.checked_degree(node),
        ];
        assert!(found.iter().all(|it| it.map_or(true, |it| it.is_none_or(|it| it < len))));
        assert!(trie.word(node, &mut [0; 2]).map_or(true, |it| it.is_none_or(|it| it <= node)));
        assert!(trie.checked_longest_labels(&word).map_or(true, |(at, count)| at < len && count <= 2));
        assert!(trie.checked_contains_labels(&word).is_ok() || trie.checked_find_labels(&word).is_err());
        assert!(trie.checked_label(node).is_ok() && trie.checked_is_end(node).is_ok());
        wrong += found.iter().filter(|it| **it == Err(WrongTables)).count();
    }
    wrong
}

#[test]
fn each_changed_word_is_seen_and_never_leads_outside() {
    let mut random = Random(45);
    let good = made(&drawn(20, 8, true, &mut random)).into_owner();
    let mut wrong = 0;
    with_one_bit_changed(&good, 1, |block, in_header| match TrieView::from_words(block) {
        Err(why) => assert_eq!((why, in_header), (StoredError::NotWhole, true)),
        Ok(trie) => {
            assert!(!in_header && !trie.check());
            wrong += inside(&trie);
        }
    });
    with_any_words(&good, &mut random, |block, _| {
        wrong += inside(&TrieView::from_words(block).expect("the header is right"));
    });
    assert!(wrong > 0);
}

#[test]
fn files_that_are_cut_or_of_another_kind_are_refused() {
    let good = made(&drawn(20, 8, true, &mut Random(46))).into_owner();
    for end in 0..good.len() {
        assert_eq!(TrieView::from_words(&good[..end]).err(), Some(StoredError::NotWhole));
    }
    assert_eq!(Tree::from_words(&good[..]).err(), other_kind(Kind::Trie, Kind::Tree));
    assert_eq!(
        Trie::from_words(Tree::build(&[1, 0]).expect("a tree").into_owner()).err(),
        other_kind(Kind::Tree, Kind::Trie)
    );
}

#[test]
fn a_query_of_a_spoilt_block_panics_and_says_why() {
    let mut block = Trie::build(&[2, 0, 1, 0], &[97, 98, 101], 8, &[]).expect("a trie").into_owner();
    block[40] = 0; // no bit of the tree is 1, and the tables say that some are
    let trie = Trie::from_words(block).expect("the header is right");
    let found = (0..4).map(|node| trie.view().checked_parent(node)).position(|it| it.is_err());
    let node = found.expect("some query sees it");
    assert_eq!(says(move || assert_eq!(trie.parent(node), None)), "the tables do not match the words");
}
