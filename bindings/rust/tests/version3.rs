//! Blocks of format version 3, one of each kind: they are read, checked and queried, and extended as blocks of version 4.
use bitm_proved::sections::{extended_by_bytes, OWN_ROLE};
use bitm_proved::{
    bytes_of, words_from_bytes, DictionaryView, IndexView, SeededHashView, Select, SequenceView, SparseBitsView,
    StoredError, StringsView, TextIndexView, TreeView, TrieView, WaveletMatrixView,
};

/// The blocks, one after another.
const BLOCKS: &[u8] = include_bytes!("common/version_3.blocks");

/// Each block, by how many bytes its header says it has.
fn blocks() -> Vec<Vec<u64>> {
    let (words, mut at, mut found) = (words_from_bytes(BLOCKS).expect("memory"), 0, Vec::new());
    while at < words.len() {
        let len = (words[at + 2] / 8) as usize;
        found.push(words[at..at + len].to_vec());
        at += len;
    }
    found
}

/// Whether the words of a block are as they were written and answer one query of what they hold: bits whose every third
/// is a 1 bit, squares, ..
fn is_right(kind: usize, block: &[u64]) -> Result<bool, StoredError> {
    Ok(match kind {
        0 => IndexView::from_words(block).map(|it| it.check() && it.select(5) == 15)?,
        1 => SequenceView::from_words(block).map(|it| it.check() && it.get(7) == Some(49))?,
        2 => SparseBitsView::from_words(block).map(|it| it.check() && it.select(7) == Some(49))?,
        4 => SeededHashView::from_words(block).map(|it| it.check() && it.get(49).is_some_and(|it| it < 40))?,
        5 => {
            DictionaryView::from_words(block).map(|it| it.check() && it.find(49).is_some_and(|n| it.keys()[n] == 49))?
        }
        6 => WaveletMatrixView::from_words(block).map(|it| it.check() && it.get(4) == Some(5))?,
        7 => TreeView::from_words(block).map(|it| it.check() && it.parent(3) == Some(2))?,
        8 => TextIndexView::from_words(block).map(|it| it.check() && it.count(b"ana") == Ok(2))?,
        9 => TrieView::from_words(block).map(|it| it.check() && it.find(b"be") == Some(3))?,
        10 | 11 => StringsView::from_words(block).map(|it| it.check() && it.find(b"bob").is_some())?,
        _ => true, // Rust has a hash without seeds in no block
    })
}

#[test]
fn each_kind_is_read_and_answers() {
    let blocks = blocks();
    assert_eq!(blocks.len(), 12);
    for (kind, block) in blocks.iter().enumerate() {
        assert_eq!((bytes_of(block)[7], is_right(kind, block)), (3, Ok(true)), "block {kind}");
    }
}

#[test]
fn what_is_extended_is_of_version_4() {
    for (kind, block) in blocks().iter().enumerate() {
        let noted = extended_by_bytes(block, OWN_ROLE, b"note").expect("a block as it was written");
        assert_eq!((bytes_of(&noted)[7], is_right(kind, &noted)), (4, Ok(true)), "block {kind}");
    }
}

#[test]
fn the_other_version_is_refused() {
    for (kind, block) in blocks().iter_mut().enumerate().filter(|(kind, _)| *kind != 3) {
        block[0] = u64::from_ne_bytes(*b"bitmtab\x04");
        assert_eq!(is_right(kind, block), Err(StoredError::NotWhole), "block {kind}");
    }
}
