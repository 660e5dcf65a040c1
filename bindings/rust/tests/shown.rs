//! What `{:?}` says: the type of a value and its numbers, by the same names and in the same order as in the other
//! languages.
mod common;
use bitm_proved::{
    Dictionary, EliasFano, Index, IndexView, KeyHash, PerfectHash, Queries, SeededHash, ShardedIndex, SparseBits,
    Strings, TextIndex, Tree, Trie, WaveletMatrix,
};

/// Of a value and of its view.
macro_rules! both {
    ($made:expr, $shown:expr) => {{
        let (made, (name, fields)) = ($made.expect("made"), $shown.split_once(' ').expect("fields"));
        assert_eq!(format!("{made:?}"), $shown);
        assert_eq!(format!("{:?}", made.view()), format!("{name}View {fields}"));
    }};
}

#[test]
fn values_and_views() {
    both!(Index::try_build([0b101u64, 1], 100, Default::default()), "Index { bits: 100, ones: 3 }");
    both!(SparseBits::build(&[3, 7], 1 << 40), "SparseBits { bits: 1099511627776, ones: 2 }");
    both!(EliasFano::build(&[2, 3, 5]), "Sequence { numbers: 3 }");
    both!(SeededHash::build(vec![5, 7]), "SeededHash { keys: 2 }");
    both!(KeyHash::build(&["ada", "bob"]), "KeyHash { keys: 2, width: 16 }");
    both!(Dictionary::build(&[4]), "Dictionary { keys: 1 }");
    both!(Strings::build(&["ada", "bob"]), "Strings { strings: 2 }");
    both!(Tree::build(&[2, 0, 0]), "Tree { nodes: 3 }");
    both!(Trie::build(&[1, 1, 0], &[97, 98], 8, &[4]), "Trie { nodes: 3, width: 8 }");
    both!(WaveletMatrix::build(&[3, 1, 4]), "WaveletMatrix { numbers: 3, width: 3 }");
    both!(TextIndex::build(b"banana", 32), "TextIndex { letters: 6, width: 2 }");
    let hash = PerfectHash::build(vec![5, 7]).expect("two hashes");
    assert_eq!(format!("{hash:?}"), "PerfectHash { keys: 2 }");
    assert_eq!(format!("{:#?}", hash), "PerfectHash {\n    keys: 2,\n}");
}

#[test]
fn cursors_and_shards() {
    let numbers = EliasFano::build(&[2, 3]).expect("sorted");
    let mut cursor = numbers.cursor();
    assert_eq!(format!("{cursor:?}"), "Cursor { index: 0, number: Some(2) }");
    assert_eq!((cursor.by_ref().count(), format!("{cursor:?}")), (2, "Cursor { index: 2, number: None }".into()));
    let index = Index::build([7u64]);
    let shards = ShardedIndex::new(&[index.view(), index.view()]).expect("few bits");
    assert_eq!(format!("{shards:?}"), "ShardedIndex { bits: 128, ones: 6, shards: 2 }");
    assert_eq!(format!("{:?}", ShardedIndex::new(&[]).expect("none")), "ShardedIndex { bits: 0, ones: 0, shards: 0 }");
}

#[test]
fn wrong_tables() {
    let view = IndexView::new(&[7], 64, &[u64::MAX], &[u64::MAX]).expect("lengths fit");
    assert_eq!(format!("{view:?}"), "IndexView { bits: 64, ones: WrongTables }");
}
