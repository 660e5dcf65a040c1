//! The index of a text beside a plain search: views, owners, files, what is built; blocks that are spoilt or cut.
mod common;

use bitm_proved::{bytes_of, words_from_bytes, BuildError, Kind, StoredError, TextIndex, TextIndexView};
use common::{other_kind, Random};

const VERSE: &[u8] = b"she sells sea shells on the sea shore";

fn block() -> Vec<u64> {
    words_from_bytes(include_bytes!("common/sea_shells.block")).unwrap()
}

/// The positions at which a pattern stands, in the order of the rest of the text from there on.
fn positions(text: &[u8], pattern: &[u8]) -> Vec<usize> {
    let mut found: Vec<usize> = (0..=text.len()).filter(|&at| text[at..].starts_with(pattern)).collect();
    found.sort_by_key(|&at| &text[at..]);
    found
}

/// The letters of a part in the index of bytes: their indexes among those that the text uses, or one that is none.
fn letters_of(text: &[u8], part: &[u8]) -> Vec<u64> {
    let mut used = text.to_vec();
    used.sort();
    used.dedup();
    part.iter().map(|it| used.binary_search(it).map_or(256, |index| index as u64)).collect()
}

fn pattern_as_plain(text: &TextIndexView, verse: &[u8], pattern: &[u8]) {
    let (wanted, letters) = (positions(verse, pattern), letters_of(verse, pattern));
    assert_eq!((text.count(pattern), text.count_letters(&letters)), (Ok(wanted.len()), Ok(wanted.len())));
    for from in [0, 1, wanted.len(), usize::MAX] {
        let left = wanted.get(from..).unwrap_or(&[]);
        for room in [0, 1, wanted.len() + 2] {
            let (mut out, mut other, written) = (vec![77; room], vec![77; room], room.min(left.len()));
            assert_eq!(text.locate(pattern, from, &mut out), Ok(written));
            assert_eq!(text.locate_letters(&letters, from, &mut other), Ok(written));
            assert_eq!((&out[..written], &out), (&left[..written], &other));
            assert!(out[written..].iter().all(|&it| it == 77));
        }
    }
}

#[test]
fn answers_are_those_of_a_plain_search() {
    let text = TextIndex::from_words(block()).unwrap();
    let view = text.view();
    assert!(view.check() && view.len() == VERSE.len() && view.width() == 4 && !view.is_empty());
    for from in 0..=VERSE.len() {
        for to in from..=VERSE.len() {
            let (mut bytes, mut letters) = (vec![1; to - from], vec![1; to - from]);
            assert_eq!((view.extract(from, &mut bytes), &bytes[..]), (Ok(true), &VERSE[from..to]));
            assert_eq!(view.extract_letters(from, &mut letters), Ok(true));
            assert_eq!(letters, letters_of(VERSE, &bytes));
            pattern_as_plain(view, VERSE, &VERSE[from..to]);
        }
        let mut more = vec![1; VERSE.len() - from + 1];
        assert_eq!((view.extract(from, &mut more), more.iter().all(|&it| it == 1)), (Ok(false), true));
        assert_eq!(view.extract(usize::MAX - from, &mut [1, 2]), Ok(false));
    }
    for pattern in [&b"shop"[..], b"\0", b"\xff", b"she sells sea shells on the sea shore!"] {
        pattern_as_plain(view, VERSE, pattern);
    }
    assert_eq!(view.count_letters(&[u64::MAX]), Ok(0));
    let shown = "Index { letters: 37, width: 4 }"; // of ten bytes
    assert_eq!(
        (format!("{view:?}"), format!("{text:?}")),
        (format!("Text{shown}").replace("Index", "IndexView"), format!("Text{shown}"))
    );
}

#[test]
fn texts_that_are_built() {
    let mut draw = Random(11);
    assert_eq!(TextIndex::build(VERSE, 32).unwrap().owner(), &block());
    for kinds in [1, 2, 3, 5, 256] {
        for step in [1, 3, 32, u32::MAX] {
            let len = draw.next() % 60;
            let verse: Vec<u8> = (0..len).map(|_| (draw.next() % kinds) as u8).collect();
            let text = TextIndex::build(&verse, step).unwrap();
            let (view, mut all) = (text.view(), vec![7; verse.len()]);
            assert!(view.check() && view.extract(0, &mut all) == Ok(true) && all == verse);
            for part in [&verse[..], &verse[verse.len() / 2..], b"", b"\0", b"\x01\0", &[9; 70]] {
                pattern_as_plain(view, &verse, part);
            }
        }
    }
    let numbers: Vec<u64> = (0..200).map(|_| draw.next() % 3 * 400).collect();
    let text = TextIndex::build_of_letters(&numbers, 801, 4).unwrap();
    let (view, mut all, mut bytes) = (text.view(), vec![7; 200], [7; 2]);
    assert!(view.check() && view.width() == 10 && view.extract_letters(0, &mut all) == Ok(true) && all == numbers);
    assert!(view.count_letters(&numbers[20..40]) != Ok(0) && view.extract(0, &mut bytes).is_err());
    assert_eq!(
        (view.count_letters(&[5]), view.count_letters(&[801]), view.count_letters(&[])),
        (Ok(0), Ok(0), Ok(201))
    );
    assert_eq!(TextIndex::build(b"", 1).unwrap().view().count(b""), Ok(1));
    assert_eq!(TextIndex::build_of_letters(&[], 0, 1).unwrap().view().count_letters(&[]), Ok(1));
    assert_eq!(TextIndex::build(VERSE, 0).err(), Some(BuildError::WrongStep));
    assert_eq!(TextIndex::build_of_letters(&[0], 1, 0).err(), Some(BuildError::WrongStep));
    for (letters, index) in [(800, numbers.iter().position(|&it| it == 800)), (0, Some(0))] {
        let refused = TextIndex::build_of_letters(&numbers, letters, 1).err();
        let letter = |index: usize| BuildError::LetterOutside { index, letter: numbers[index], letters };
        assert_eq!(refused, index.map(letter));
    }
}

#[test]
fn owners_and_blocks_in_longer_files() {
    let (words, mut longer) = (block(), block());
    longer.extend([5; 7]);
    let copy = TextIndex::from_words(longer.clone()).unwrap().clone();
    assert_eq!((copy.view().block(), copy.owner()), (&words[..], &words));
    assert_eq!(TextIndex::from_bytes(bytes_of(&longer)).unwrap().view().count(b"sea"), Ok(2));
    assert_eq!(TextIndexView::from_bytes(&bytes_of(&words)[1..]).err(), Some(StoredError::Misaligned));
    assert_eq!(TextIndexView::from_bytes(&[]).err(), Some(StoredError::NotWhole));
    assert_eq!(bitm_proved::TreeView::from_words(&words).err(), other_kind(Kind::TextIndex, Kind::Tree));
    let matrix = bitm_proved::WaveletMatrix::build(&[3, 1, 4]).unwrap();
    assert_eq!(TextIndexView::from_words(matrix.block()).err(), other_kind(Kind::WaveletMatrix, Kind::TextIndex));
    for len in 0..words.len() {
        assert!(TextIndexView::from_words(&words[..len]).is_err());
    }
}

/// Whatever the block holds, each answer is inside, or says that the tables are wrong.
fn answers_within(text: &TextIndexView) {
    let (mut out, mut part) = ([0; 20], [0; 5]);
    for pattern in [&b""[..], b"s", b"he", b"\x01\x02"] {
        assert!(text.count(pattern).map_or(true, |it| it <= text.len() + 1));
        let written = text.locate(pattern, 0, &mut out).unwrap_or(0);
        assert!(out[..written].iter().all(|&it| it <= text.len()));
    }
    assert!(text.extract(3, &mut part) != Ok(false));
}

#[test]
fn spoilt_blocks_are_seen() {
    let (good, mut draw) = (block(), Random(5));
    for word in 0..good.len() {
        for bit in (0..64).step_by(11) {
            let mut spoilt = good.clone();
            spoilt[word] ^= 1 << bit;
            match TextIndexView::from_words(&spoilt) {
                Ok(text) => {
                    assert!(word >= 72 && !text.check());
                    answers_within(&text);
                }
                Err(_) => assert!(word < 72), // header and directory have checksums that opening compares
            }
        }
    }
    for _ in 0..200 {
        let mut spoilt = good.clone();
        spoilt[72..].fill_with(|| draw.next() & draw.next());
        answers_within(&TextIndexView::from_words(&spoilt).unwrap());
    }
}
