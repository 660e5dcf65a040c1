//! Each bit of a small file of each kind, flipped: opening refuses the file, or its check does. The same of the file with a
//! section of a caller's own.
use bitm_proved::{
    sections, Dictionary, EliasFano, Index, Queries, Sampling, SeededHash, SparseBits, StoredError, Strings, TextIndex,
    Tree, Trie, WaveletMatrix,
};

/// Whether a file is opened, and is as it was written.
type Passes = fn(Vec<u64>) -> Result<bool, StoredError>;

fn refuses_each_flipped_bit(kind: &str, file: &[u64], passes: Passes) {
    let noted = sections::extended_by_bytes(file, sections::OWN_ROLE, b"a note").expect("room");
    for (note, file) in [("without a note", file), ("with a note", &noted)] {
        assert_eq!(passes(file.to_vec()), Ok(true), "{kind} {note}");
        for bit in 0..64 * file.len() {
            let mut spoilt = file.to_vec();
            spoilt[bit / 64] ^= 1 << (bit % 64);
            assert_ne!(passes(spoilt), Ok(true), "{kind} {note}: bit {bit}");
        }
    }
}

macro_rules! passes {
    ($kind:ident) => {
        |file| $kind::from_words(file).map(|it| it.check())
    };
}

#[test]
fn of_an_index_with_samples_and_without() {
    let words: Vec<u64> = (0..30).map(|i: u64| i.wrapping_mul(0x9E37_79B9_7F4A_7C15)).collect();
    let all = [None, Some(7)];
    for (ones, zeros) in all.iter().flat_map(|ones| all.map(|zeros| (*ones, zeros))) {
        let made = Index::try_build(&words, 1900, Sampling { ones, zeros }).expect("1900 bits");
        let file = made.to_stored(1900).expect("right");
        refuses_each_flipped_bit("index", &file, passes!(Index));
    }
}

#[test]
fn of_a_sequence_and_of_sparse_bits() {
    let squares: Vec<u64> = (0..100).map(|i| i * i).collect();
    let made = EliasFano::build(&squares).expect("sorted");
    refuses_each_flipped_bit("sequence", &made.to_stored().expect("right"), passes!(EliasFano));
    let made = SparseBits::build(&squares, 10_000).expect("rising");
    refuses_each_flipped_bit("sparse bits", made.block(), passes!(SparseBits));
}

#[test]
fn of_hashes_dictionaries_and_strings() {
    let keys: Vec<u64> = (0..50).map(|i: u64| i.wrapping_mul(0x9E37_79B9_7F4A_7C15)).collect();
    refuses_each_flipped_bit("hash", SeededHash::build(keys.clone()).expect("keys").block(), passes!(SeededHash));
    refuses_each_flipped_bit("dictionary", Dictionary::build(&keys).expect("keys").block(), passes!(Dictionary));
    let strings = Strings::build(&["ada", "bob", "eve", ""]).expect("strings");
    refuses_each_flipped_bit("strings", strings.block(), passes!(Strings));
}

#[test]
fn of_trees_and_tries() {
    refuses_each_flipped_bit("tree", Tree::build(&[2, 0, 1, 0]).expect("a tree").block(), passes!(Tree));
    refuses_each_flipped_bit("trie", Trie::of_words(&["a", "be"]).expect("sorted").block(), passes!(Trie));
}

#[test]
fn of_matrices_and_texts() {
    let numbers = [3, 1, 4, 1, 5];
    for matrix in [
        WaveletMatrix::build(&numbers),
        WaveletMatrix::build_with_quarters(&numbers, 3),
        WaveletMatrix::build_with_hints(&numbers, 3, false),
        WaveletMatrix::build_with_hints(&numbers, 3, true),
    ] {
        refuses_each_flipped_bit("matrix", matrix.expect("numbers").block(), passes!(WaveletMatrix));
    }
    for text in [TextIndex::build(b"banana", 2), TextIndex::build_of_letters(&[3, 1, 4, 1, 5], 8, 2)] {
        refuses_each_flipped_bit("text", text.expect("a text").view().block(), |file| {
            TextIndex::from_words(file).map(|it| it.view().check())
        });
    }
}
