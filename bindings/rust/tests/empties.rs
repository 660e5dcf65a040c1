//! Values of nothing: the slices that they give are empty ones, and not made of a null pointer, which std looks at where
//! debug assertions are on; and each query has no answer.
use bitm_proved::{
    bytes_of, sections, words, words_from_bytes, Cursor, Dictionary, EliasFano, Index, IndexView, PerfectHash,
    PrefixCounts, Queries, Sampling, SeededHash, SequenceView, ShardedIndex, SparseBits, Strings, TextIndex, Tree,
    Trie, WaveletMatrix,
};

const NO_WORDS: [&str; 0] = [];

#[test]
fn of_bits_and_numbers() {
    let index = Index::build(Vec::new());
    let view = index.view();
    assert!(view.words().is_empty() && view.upper().is_empty() && view.lower().is_empty());
    let sampled = Index::try_build(Vec::new(), 0, Sampling { ones: Some(7), zeros: Some(7) }).expect("no bits");
    let file = sampled.to_stored(0).expect("right");
    let stored = IndexView::from_words(&file).expect("an index");
    for one in [true, false] {
        let samples = stored.samples(one).expect("samples");
        assert!(samples.samples.is_empty() && samples.starts.is_empty());
    }
    assert!(stored.words().is_empty());
    let numbers = EliasFano::build(&[]).expect("rising");
    let file = numbers.to_stored().expect("right");
    let stored = SequenceView::from_words(&file).expect("a sequence");
    for view in [numbers.view(), &stored] {
        assert!(view.parts()[0].is_empty());
    }
    assert_eq!((numbers.iter().next(), numbers.cursor().number()), (None, None));
    let bits = SparseBits::build(&[], 100).expect("rising");
    assert_eq!((bits.rank(100), bits.select0(99), bits.check()), (Some(0), Some(99), true));
    assert!(bits.positions().parts()[0].is_empty());
    assert_eq!((words::get(&[], 0, 0), words::count(&[], 0, true)), (None, 0));
    assert!(bytes_of(&[]).is_empty() && words_from_bytes(&[1, 2, 3]).expect("room").is_empty());
}

#[test]
fn of_keys_and_strings() {
    let keys = Dictionary::build(&[]).expect("no keys");
    assert!(keys.keys().is_empty() && keys.find(5).is_none() && keys.check());
    let strings = Strings::build(&NO_WORDS).expect("no strings");
    assert!(strings.get(0).is_none() && strings.find(b"").is_none() && strings.check());
    let one = Strings::build(&[""]).expect("one string");
    assert_eq!((one.get(0), one.find(b""), one.check()), (Some(&b""[..]), Some(0), true));
    let seeded = SeededHash::build(Vec::new()).expect("no keys");
    assert!(seeded.get(5).is_none() && seeded.check());
    assert!(PerfectHash::build(Vec::new()).expect("no keys").get(5).is_none());
}

#[test]
fn of_trees_matrices_and_texts() {
    let matrix = WaveletMatrix::build(&[]).expect("no numbers");
    assert!(matrix.get(0).is_none() && matrix.check());
    assert_eq!(matrix.distinct(0..0, 0, &mut [], &mut []), Ok(Some(0)));
    let text = TextIndex::build(b"", 1).expect("a text");
    assert_eq!((text.view().count(b""), text.view().extract(0, &mut [])), (Ok(1), Ok(true)));
    let words = Trie::of_words(&NO_WORDS).expect("no words");
    assert_eq!((words.find(b""), words.check()), (Some(0), true));
    let endless = Trie::build(&[0], &[], 8, &[]).expect("a root");
    assert_eq!((endless.find(b""), endless.is_end(0), endless.check()), (Some(0), None, true));
    let tree = Tree::build(&[0]).expect("a root");
    let noted = sections::extended(tree.block(), sections::OWN_ROLE, 0, &[]).expect("room");
    let note = sections::section(&noted, 4).expect("a block").expect("the fifth");
    assert!(note.words.is_empty() && note.count == 0);
}

#[test]
fn of_no_shards_and_no_lists() {
    let shards = ShardedIndex::new(&[]).expect("no shards");
    assert_eq!((shards.rank(0), shards.rank(1), shards.select(0)), (Ok(Some(0)), Ok(None), Ok(None)));
    assert!(shards.counts().find(0).is_none());
    assert!(PrefixCounts::new(&[], &[]).expect("no shards").find(0).is_none());
    assert!(Cursor::union(Vec::<Cursor<'_>>::new()).next().is_none());
}
