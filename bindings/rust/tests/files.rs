//! Files that are copied into memory, by code that has no `unsafe`, and files that are mapped.
#![cfg(feature = "std")]
#![deny(unsafe_code)]
use bitm_proved::{
    bytes_of, words_from_file, Dictionary, EliasFano, Index, OpenError, Queries, Rank, SeededHash, Select, SparseBits,
    StoredError, Strings, TextIndex, Tree, Trie, WaveletMatrix,
};
use std::fs;
use std::path::PathBuf;

/// A folder of a test, which is removed after it.
struct Folder(PathBuf);

impl Folder {
    fn new(name: &str) -> Self {
        let folder = std::env::temp_dir().join(format!("bitm-{name}-{}", std::process::id()));
        fs::create_dir_all(&folder).expect("a folder");
        Folder(folder)
    }

    fn file(&self, name: &str, words: &[u64]) -> PathBuf {
        let path = self.0.join(name);
        fs::write(&path, bytes_of(words)).expect("written");
        path
    }
}

impl Drop for Folder {
    fn drop(&mut self) {
        fs::remove_dir_all(&self.0).expect("removed");
    }
}

#[test]
fn each_structure_is_read_into_memory() {
    let all = Folder::new("read");
    let index = Index::build(vec![0b1011u64; 100]);
    let index = Index::read(all.file("index", &index.to_stored(6399).expect("so many"))).expect("just written");
    assert!(index.check() && (index.rank(6399), index.select(299), index.try_rank(6400)) == (300, 6339, None));
    let numbers = EliasFano::build(&[2, 3, 5]).expect("sorted").to_stored().expect("right");
    let numbers = EliasFano::read(all.file("numbers", &numbers)).expect("just written");
    assert!(numbers.check() && numbers.iter().eq([2, 3, 5]));
    let tree = Tree::read(all.file("tree", Tree::build(&[2, 0, 1, 0]).expect("a tree").block()));
    assert!(tree.is_ok_and(|it| it.check() && it.parent(3) == Some(2)));
    let trie = Trie::read(all.file("trie", Trie::of_words(&["a", "be"]).expect("sorted").block()));
    assert!(trie.is_ok_and(|it| it.check() && it.contains(b"be")));
    let matrix = WaveletMatrix::read(all.file("matrix", WaveletMatrix::build(&[3, 1, 4]).expect("three").block()));
    assert!(matrix.is_ok_and(|it| it.check() && it.get(2) == Some(4)));
    let bits = SparseBits::read(all.file("bits", SparseBits::build(&[3, 100], 5000).expect("rising").block()));
    assert!(bits.is_ok_and(|it| it.check() && it.rank(101) == Some(2)));
    let text = TextIndex::read(all.file("text", TextIndex::build(b"banana", 32).expect("a text").view().block()));
    assert!(text.is_ok_and(|it| it.view().check() && it.view().count(b"ana") == Ok(2)));
    let dictionary = Dictionary::read(all.file("keys", Dictionary::build(&[4, 9]).expect("keys").block()));
    assert!(dictionary.is_ok_and(|it| it.check() && it.contains(9) && !it.contains(5)));
    let strings = Strings::read(all.file("strings", Strings::build(&["ada", "bob"]).expect("strings").block()));
    assert!(strings.is_ok_and(|it| it.check() && it.contains(b"bob")));
    let hash = SeededHash::read(all.file("hash", SeededHash::build(vec![5]).expect("a key").block()));
    assert!(hash.is_ok_and(|it| it.check() && it.get(5) == Some(0)));
}

#[test]
fn a_file_that_changes_after_it_was_read_changes_no_answer() {
    let all = Folder::new("changes");
    let path = all.file("index", &Index::build(vec![7u64; 1000]).to_stored(64_000).expect("right"));
    let index = Index::read(&path).expect("just written");
    fs::OpenOptions::new().write(true).open(&path).and_then(|it| it.set_len(0)).expect("cut");
    assert!(index.check() && (0..3000).all(|rank| index.select(rank) == rank / 3 * 64 + rank % 3));
}

#[test]
fn what_is_no_file_of_the_kind_is_not_read() {
    let all = Folder::new("refused");
    let numbers = all.file("numbers", &EliasFano::build(&[2]).expect("sorted").to_stored().expect("right"));
    assert!(matches!(Index::read(&numbers), Err(OpenError::Stored(StoredError::OtherKind { .. }))));
    assert!(matches!(Tree::read(&numbers), Err(OpenError::Stored(StoredError::OtherKind { .. }))));
    assert!(matches!(Index::read(all.0.join("none")), Err(OpenError::System(_))));
    assert!(matches!(Index::read(&all.0), Err(OpenError::System(_)))); // a folder
    assert!(matches!(Index::read(all.file("empty", &[])), Err(OpenError::Stored(StoredError::NotWhole))));
}

#[cfg(target_os = "linux")]
#[test]
fn a_file_whose_length_nobody_knows_is_read_whole() {
    let known = fs::read("/proc/self/auxv").expect("Linux"); // words, and metadata says 0 bytes
    assert_eq!(bytes_of(&words_from_file("/proc/self/auxv").expect("Linux")), known);
}

#[cfg(all(feature = "mmap", unix))]
#[allow(unsafe_code)]
mod mapped {
    use super::*;
    use bitm_proved::{IndexFile, SequenceFile};

    #[test]
    fn a_mapped_file_answers_and_is_shared() {
        let all = Folder::new("mapped");
        let path = all.file("index", &Index::build(vec![0b1011u64; 1000]).to_stored(63_999).expect("so many"));
        let numbers = EliasFano::build(&[2, 3, 5]).expect("sorted");
        let other = all.file("sequence", &numbers.to_stored().expect("right"));
        // SAFETY: nobody changes the file while it is mapped.
        let index = unsafe { IndexFile::open(&path) }.expect("just written");
        assert!(index.check());
        let answers = std::thread::spawn(move || (index.rank(63_999), index.select(2999), index.try_rank(64_000)));
        assert_eq!(answers.join().expect("no panic"), (3000, 63_939, None));
        // SAFETY: nobody changes the file while it is mapped.
        assert!(unsafe { SequenceFile::open(&other) }.expect("just written").iter().eq([2, 3, 5]));
    }

    #[test]
    fn what_is_no_file_of_the_kind_is_not_mapped() {
        let all = Folder::new("not-mapped");
        // SAFETY: nobody changes a file of this folder while it is mapped.
        let open = |path: &PathBuf| unsafe { IndexFile::open(path) };
        let other = all.file("sequence", &EliasFano::build(&[2]).expect("sorted").to_stored().expect("right"));
        assert!(matches!(open(&other), Err(OpenError::Stored(StoredError::OtherKind { .. }))));
        assert!(matches!(open(&all.0.join("none")), Err(OpenError::System(_))));
        assert!(matches!(open(&all.0), Err(OpenError::System(_)))); // a folder
        assert!(matches!(open(&all.file("empty", &[])), Err(OpenError::Stored(StoredError::NotWhole))));
    }
}
