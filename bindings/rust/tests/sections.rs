//! Sections of a caller's own in blocks of each kind: what is added is there, what was there stays, and what is refused.
mod common;
use bitm_proved::sections::{
    extend, extended, extended_by_bytes, extended_size, is_written, section, Section, OWN_ROLE,
};
use bitm_proved::{
    bytes_of, words_from_bytes, Dictionary, SeededHash, SparseBits, StoredError, Strings, TextIndex, Tree, Trie,
    WaveletMatrix,
};
use common::{with_one_bit_changed, Random};

/// How many sections a block has: each of them is there, and none after the last one.
fn count(block: &[u64]) -> usize {
    let count = (0..).find(|it| section(block, *it).expect("a block").is_none()).expect("at most 16");
    assert!([count + 1, 16, 17, usize::MAX].iter().all(|it| section(block, *it) == Ok(None)));
    count
}

fn tree() -> Vec<u64> {
    Tree::build(&[2, 0, 1, 0]).expect("a tree").into_owner()
}

/// A block of each kind that this crate writes.
fn blocks() -> Vec<Vec<u64>> {
    vec![
        tree(),
        Trie::of_words(&["a", "b", "be"]).expect("rising").into_owner(),
        WaveletMatrix::build(&[3, 1, 4, 1, 5]).expect("any").into_owner(),
        SparseBits::build(&[3, 100], 5000).expect("rising").into_owner(),
        TextIndex::build(b"banana", 4).expect("any").into_owner(),
        Dictionary::build(&[4, 9, 49]).expect("any").into_owner(),
        Strings::build(&["ada", "bob"]).expect("any").into_owner(),
        SeededHash::build(vec![5, 7, 9]).expect("any").into_owner(),
    ]
}

#[test]
fn what_is_added_is_there_and_what_was_there_stays() {
    let mut random = Random(94);
    for block in blocks() {
        let before = count(&block);
        for (role, per_word) in [(OWN_ROLE, 8), (u64::MAX, 8), (15, 8), (7, 2), (8, 2), (9, 1)] {
            for items in (0..20usize).chain([100, 1000]) {
                let words = random.words(items.div_ceil(per_word));
                let longer = extended(&block, role, items, &words).expect("a block");
                assert_eq!((longer.len(), is_written(&longer)), (extended_size(&block, role, items).unwrap(), true));
                assert_eq!(count(&longer), before + 1);
                assert_eq!(section(&longer, before), Ok(Some(Section { role, count: items, words: &words })));
                assert!((0..before).all(|it| section(&longer, it) == section(&block, it)));
            }
        }
    }
}

#[test]
fn structures_open_with_sections_after_their_own() {
    let all = blocks();
    let noted: Vec<Vec<u64>> = all.iter().map(|it| extended_by_bytes(it, OWN_ROLE, b"a note").expect("any")).collect();
    assert_eq!(Tree::from_words(&noted[0][..]).map(|it| (it.check(), it.parent(3))), Ok((true, Some(2))));
    assert_eq!(Trie::from_words(&noted[1][..]).map(|it| (it.check(), it.find(b"be"))), Ok((true, Some(3))));
    assert_eq!(WaveletMatrix::from_words(&noted[2][..]).map(|it| (it.check(), it.get(4))), Ok((true, Some(5))));
    assert_eq!(SparseBits::from_words(&noted[3][..]).map(|it| (it.check(), it.select(1))), Ok((true, Some(100))));
    assert!(noted.iter().all(|it| is_written(it)));
    let bytes = section(&noted[0], 4).expect("a block").expect("the note");
    assert_eq!((bytes_of(bytes.words), bytes.count), (&b"a note\0\0"[..], 6));
}

#[test]
fn a_block_has_sixteen_sections_at_most() {
    let mut block = tree();
    for turn in 4..16 {
        block = extended(&block, OWN_ROLE + turn, 3, &[turn]).expect("fewer than 16");
    }
    assert_eq!(count(&block), 16);
    assert!((4..16).all(|it| section(&block, it as usize).is_ok_and(|at| at.is_some_and(|at| at.words == [it]))));
    assert_eq!(Tree::from_words(&block[..]).map(|it| (it.check(), it.parent(3))), Ok((true, Some(2))));
    assert_eq!(extended_size(&block, OWN_ROLE, 3), Err(StoredError::NoSection));
    assert_eq!(extended(&block, OWN_ROLE, 3, &[7]), Err(StoredError::NoSection));
    assert_eq!(extend(&block, OWN_ROLE, 3, &[7], &mut vec![0; block.len()]), Err(StoredError::NoSection));
}

#[test]
fn lengths_that_do_not_fit_are_refused_and_change_nothing() {
    let block = tree();
    let mut to = vec![7; extended_size(&block, OWN_ROLE, 16).expect("a block")];
    for words in [&[][..], &[1], &[1, 2, 3]] {
        assert_eq!(extend(&block, OWN_ROLE, 16, words, &mut to), Err(StoredError::NoSection));
        assert_eq!(extended(&block, OWN_ROLE, 16, words), Err(StoredError::NoSection));
    }
    let len = to.len();
    for room in [0, len - 8, len - 1] {
        assert_eq!(extend(&block, OWN_ROLE, 16, &[1, 2], &mut to[..room]), Err(StoredError::NoSection));
    }
    for items in [1 << 58, usize::MAX] {
        assert_eq!(extended_size(&block, 9, items), Err(StoredError::NoSection));
        assert_eq!(extended(&block, 9, items, &[]), Err(StoredError::NoSection));
    }
    assert!(to.iter().all(|it| *it == 7));
    assert_eq!(extend(&block, OWN_ROLE, 16, &[1, 2], &mut to), Ok(()));
    assert_eq!(
        StoredError::NoSection.to_string(),
        "the block has 16 sections, or a length does not fit the items of a section"
    );
}

#[test]
fn what_is_spoilt_or_no_block_is_refused() {
    let block = tree();
    let mut to = vec![7; extended_size(&block, OWN_ROLE, 16).expect("a block")];
    with_one_bit_changed(&block, 1, |spoilt, in_header| {
        assert!(!is_written(spoilt));
        let not_whole = Some(StoredError::NotWhole);
        assert_eq!(extended_size(spoilt, OWN_ROLE, 16).err(), not_whole.filter(|_| in_header));
        assert_eq!(section(spoilt, 0).err(), not_whole.filter(|_| in_header));
        // The zeros between two sections are no section's: what is written has zeros there again.
        if extend(spoilt, OWN_ROLE, 16, &[1, 2], &mut to).is_ok() {
            assert!(is_written(&to) && to == extended(&block, OWN_ROLE, 16, &[1, 2]).expect("a block"));
            to.fill(7);
        }
        assert!(to.iter().all(|it| *it == 7));
    });
    let sequence = words_from_bytes(include_bytes!("common/sequence.v2")).expect("memory"); // a file, but no block
    for other in [&[][..], &block[..block.len() - 1], &block[1..], &[7; 40], &[0; 40], &[u64::MAX; 40], &sequence] {
        assert!(!is_written(other));
        assert_eq!(section(other, 0), Err(StoredError::NotWhole));
        assert_eq!(extended_size(other, OWN_ROLE, 16), Err(StoredError::NotWhole));
        assert_eq!(extended(other, OWN_ROLE, 0, &[]), Err(StoredError::NotWhole));
        assert_eq!(extended_by_bytes(other, OWN_ROLE, b"note"), Err(StoredError::NotWhole));
    }
    let longer = [block, vec![0]].concat(); // a word after the block
    assert_eq!(section(&longer, 0), Err(StoredError::NotWhole));
}
