//! A right file of another kind is named as what it is, and damage is not.
#![cfg(feature = "std")]
mod common;
use bitm_proved::{
    Dictionary, EliasFano, Index, IndexView, KeyHash, Kind, Queries, SeededHash, Sequence, SequenceView, SparseBits,
    StoredError, Strings, TextIndex, Tree, Trie, WaveletMatrix,
};
use common::other_kind;

/// The file of each kind that the crate writes.
fn files() -> Vec<(Kind, Vec<u64>)> {
    let trie = Trie::build(&[1, 0], &[97], 8, &[2]).expect("a trie");
    vec![
        (Kind::Index, Index::build([7u64]).to_stored(64).expect("memory")),
        (Kind::Sequence, EliasFano::build(&[2, 3, 5]).expect("sorted").to_stored().expect("memory")),
        (Kind::SparseBits, SparseBits::build(&[3, 100], 5000).expect("bits").into_owner()),
        (Kind::SeededHash, SeededHash::build(vec![5, 7, 9]).expect("hashes").into_owner()),
        (Kind::KeyHash, KeyHash::build(&["ada", "bob"]).expect("keys").into_owner()),
        (Kind::Dictionary, Dictionary::build(&[4, 9, 49]).expect("keys").into_owner()),
        (Kind::WaveletMatrix, WaveletMatrix::build(&[3, 1, 4]).expect("numbers").into_owner()),
        (Kind::Tree, Tree::build(&[2, 0, 1, 0]).expect("a tree").into_owner()),
        (Kind::Trie, trie.into_owner()),
        (Kind::TextIndex, TextIndex::build(b"banana", 32).expect("a text").into_owner()),
        (Kind::Strings, Strings::build(&["ada", "bob"]).expect("strings").into_owner()),
    ]
}

/// Why words are no file of a kind; `None` where they are one.
fn refused(wanted: Kind, file: &[u64]) -> Option<StoredError> {
    match wanted {
        Kind::Index => Index::from_words(file).err(),
        Kind::Sequence => Sequence::from_words(file).err(),
        Kind::SparseBits => SparseBits::from_words(file).err(),
        Kind::SeededHash => SeededHash::from_words(file).err(),
        Kind::KeyHash => KeyHash::from_words(file).err(),
        Kind::Dictionary => Dictionary::from_words(file).err(),
        Kind::WaveletMatrix => WaveletMatrix::from_words(file).err(),
        Kind::Tree => Tree::from_words(file).err(),
        Kind::Trie => Trie::from_words(file).err(),
        Kind::TextIndex => TextIndex::from_words(file).err(),
        _ => Strings::from_words(file).err(),
    }
}

#[test]
fn each_file_opened_as_each_kind() {
    let all = files();
    for (held, file) in &all {
        let mut longer = file.clone();
        longer.extend([5; 7]); // words after the block are not its own
        assert_eq!((Kind::of(file), Kind::of(&longer)), (Some(*held), Some(*held)));
        for (wanted, _) in &all {
            let why = if held == wanted { None } else { other_kind(*held, *wanted) };
            assert_eq!((refused(*wanted, file), refused(*wanted, &longer)), (why, why));
        }
    }
    let why = Index::from_words(&all[8].1[..]).expect_err("a trie is no index");
    assert_eq!(why.to_string(), "the file holds a trie, not an index");
}

#[test]
fn damage_and_kinds_that_are_not_known_are_no_other_kind() {
    for (held, good) in files() {
        for bit in 0..64 * 20 {
            let mut file = good.clone();
            file[bit / 64] ^= 1 << (bit % 64); // of the header, or of an entry of the directory
            assert_eq!((Kind::of(&file), refused(held, &file)), (None, Some(StoredError::NotWhole)));
            assert_eq!(refused(Kind::Tree, &file), Some(StoredError::NotWhole));
        }
        for end in 0..good.len() {
            assert_eq!(
                (Kind::of(&good[..end]), refused(Kind::Trie, &good[..end])),
                (None, Some(StoredError::NotWhole))
            );
        }
    }
    for file in [&[][..], &[7; 3], &[0; 40]] {
        assert_eq!((Kind::of(file), IndexView::from_words(file).err()), (None, Some(StoredError::NotWhole)));
        assert_eq!(SequenceView::from_words(file).err(), Some(StoredError::NotWhole));
    }
}

#[test]
fn files_of_version_2() {
    let words = |bytes: &[u8]| bitm_proved::words_from_bytes(bytes).expect("memory");
    for (held, file) in
        [(Kind::Index, &include_bytes!("common/index.v2")[..]), (Kind::Sequence, include_bytes!("common/sequence.v2"))]
    {
        assert_eq!(
            (Kind::of(&words(file)), refused(Kind::Tree, &words(file))),
            (Some(held), other_kind(held, Kind::Tree))
        );
    }
}
