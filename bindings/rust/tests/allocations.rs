//! Each allocation of a call refused in turn: it returns the error that says so, and none ends the program.
use bitm_proved::{
    sections, words_from_bytes, BitVec, BuildError, CombinedSampling, Dictionary, EliasFano, Index, IndexView, KeyHash,
    KeyOptions, ListError, NoMemory, PerfectHash, PrefixCounts, Queries, RankSelect101111, RankSimple, Sampling,
    SeededHash, SequenceView, ShardedIndex, SparseBits, StoredError, Strings, TextIndex, Tree, Trie, WaveletMatrix,
};
use std::alloc::{GlobalAlloc, Layout, System};
use std::cell::Cell;

thread_local!(static GRANTED: Cell<usize> = const { Cell::new(usize::MAX) });

/// Grants each thread as many allocations as `GRANTED` says, and refuses all after them.
struct Refusing;

fn is_granted() -> bool {
    let left = GRANTED.get();
    GRANTED.set(if left == usize::MAX { left } else { left.saturating_sub(1) });
    left > 0
}

// SAFETY: what the system's allocator gives, or nothing.
unsafe impl GlobalAlloc for Refusing {
    unsafe fn alloc(&self, layout: Layout) -> *mut u8 {
        match is_granted() {
            // SAFETY: the caller's duty.
            true => unsafe { System.alloc(layout) },
            false => std::ptr::null_mut(),
        }
    }

    unsafe fn alloc_zeroed(&self, layout: Layout) -> *mut u8 {
        match is_granted() {
            // SAFETY: the caller's duty.
            true => unsafe { System.alloc_zeroed(layout) },
            false => std::ptr::null_mut(),
        }
    }

    unsafe fn realloc(&self, at: *mut u8, layout: Layout, size: usize) -> *mut u8 {
        match is_granted() {
            // SAFETY: the caller's duty.
            true => unsafe { System.realloc(at, layout, size) },
            false => std::ptr::null_mut(),
        }
    }

    unsafe fn dealloc(&self, at: *mut u8, layout: Layout) {
        // SAFETY: the caller's duty.
        unsafe { System.dealloc(at, layout) }
    }
}

#[global_allocator]
static REFUSING: Refusing = Refusing;

/// Whether an error says that memory was refused.
trait SaysSo {
    fn says_so(&self) -> bool;
}

impl SaysSo for NoMemory {
    fn says_so(&self) -> bool {
        self.bytes > 0
    }
}

impl SaysSo for BuildError {
    fn says_so(&self) -> bool {
        matches!(self, BuildError::NoMemory(_))
    }
}

impl SaysSo for StoredError {
    fn says_so(&self) -> bool {
        matches!(self, StoredError::NoMemory(_))
    }
}

#[cfg(feature = "std")]
impl SaysSo for bitm_proved::OpenError {
    fn says_so(&self) -> bool {
        matches!(self, bitm_proved::OpenError::Stored(StoredError::NoMemory(_)))
    }
}

/// Makes a call of what is prepared, first without any memory, then with one allocation more each time, until it
/// succeeds. Returns how many allocations that took.
fn refused_in_turn<I, T, E: SaysSo>(prepare: impl Fn() -> I, call: impl Fn(I) -> Result<T, E>) -> usize {
    for granted in 0..100 {
        let prepared = prepare();
        GRANTED.set(granted);
        let made = call(prepared);
        GRANTED.set(usize::MAX);
        match made {
            Ok(_) => return granted,
            Err(why) => assert!(why.says_so()),
        }
    }
    panic!("a hundred allocations are not enough");
}

fn of<T, E: SaysSo>(call: impl Fn() -> Result<T, E>) -> usize {
    refused_in_turn(|| (), |()| call())
}

fn keys() -> Vec<u64> {
    (0..100).map(|i: u64| i.wrapping_mul(0x9E37_79B9_7F4A_7C15)).collect()
}

#[test]
fn indexes_and_their_files() {
    let (words, sampling) = ([7u64; 40], Sampling { ones: Some(7), zeros: Some(7) });
    let made = Index::try_build(words, 2560, sampling).expect("2560 bits");
    let file = made.to_stored(2560).expect("right");
    assert_eq!(of(|| Index::try_build(&words, 2560, Sampling::default())), 3); // its owner, and two tables
    assert_eq!(of(|| Index::try_build(&words, 2560, sampling)), 9); // and twice: room, starts, samples
    assert_eq!(of(|| Index::from_words(&file[..])), 1);
    assert_eq!(of(|| IndexView::from_words(&file)), 0);
    assert_eq!(of(|| IndexView::from_words(&file).and_then(|it| it.to_words())), 1);
    assert_eq!(of(|| made.to_stored(2560)), 9); // the block, and twice: samples, starts, the block with each
    assert_eq!(of(|| made.to_stored(100)), 9);
    assert_eq!(of(|| RankSelect101111::<CombinedSampling, CombinedSampling, _>::try_build(&words[..])), 8);
    assert_eq!(of(|| RankSimple::try_build(&words[..])), 2);
}

#[test]
fn sequences_and_their_files() {
    let items: Vec<u64> = (0..100).map(|i| i * i).collect();
    let made = EliasFano::build(&items).expect("sorted");
    let parts = SequenceView::new(100, made.view().width(), made.view().parts()).expect("its own");
    assert_eq!(of(|| EliasFano::build(&items)), 2); // the block, and its owner
    assert_eq!(of(|| made.try_clone()), 2);
    assert_eq!(of(|| made.to_stored()), 1);
    assert_eq!(of(|| parts.to_words()), 2); // the numbers, and the block
    assert!(of(|| SparseBits::build(&items, 10_000)) > 0);
}

#[test]
fn blocks_of_other_kinds() {
    let (degrees, words) = ([2, 0, 1, 0], ["a", "be"]);
    let tree = Tree::build(&degrees).expect("a tree");
    assert_eq!(of(|| Tree::build(&degrees)), 2); // the block, and its owner
    assert_eq!(of(|| tree.try_clone()), 2);
    assert_eq!(of(|| Trie::build(&[1, 0], &[97], 8, &[2])), 2);
    assert!(of(|| Trie::of_words(&words)) > 2);
    assert!(of(|| WaveletMatrix::build(&[3, 1, 4])) > 1);
    assert!(of(|| TextIndex::build(b"banana", 2)) > 1);
    assert!(of(|| TextIndex::build_of_letters(&[1, 0, 2, 0], 3, 2)) > 1);
    assert!(refused_in_turn(keys, |keys| Dictionary::build(&keys)) > 2);
    assert!(of(|| Strings::build(&words)) > 2);
    assert!(refused_in_turn(keys, PerfectHash::build) > 2);
    assert!(refused_in_turn(keys, SeededHash::build) > 2);
    let seeded = KeyOptions { tries: Some(4), ..KeyOptions::default() };
    assert!(of(|| KeyHash::build(0..100)) > 5 && of(|| KeyHash::build_with(0..100, seeded)) > 7);
    assert_eq!(of(|| sections::extended(tree.block(), 65536, 8, &[7])), 1);
    assert_eq!(of(|| sections::extended_by_bytes(tree.block(), 65536, b"a note")), 2);
}

/// No call allocates more often with a callback than without.
#[test]
fn builds_that_say_how_far_they_are() {
    let (numbers, text, nothing) = ([3, 1, 4], b"banana", |_, _| ());
    let plain = of(|| WaveletMatrix::build(&numbers));
    assert_eq!(of(|| WaveletMatrix::build_with_progress(&numbers, 3, false, false, nothing)), plain);
    assert_eq!(of(|| TextIndex::build_with_progress(text, 2, nothing)), of(|| TextIndex::build(text, 2)));
    let letters = of(|| TextIndex::build_of_letters(&numbers, 5, 2));
    assert_eq!(of(|| TextIndex::build_of_letters_with_progress(&numbers, 5, 2, nothing)), letters);
    let hash = |keys| PerfectHash::build_with_progress(keys, 100, nothing);
    assert_eq!(refused_in_turn(keys, hash), refused_in_turn(keys, PerfectHash::build));
    let seeded = |keys| SeededHash::build_with_progress(keys, 100, 64, 0, nothing);
    assert_eq!(refused_in_turn(keys, seeded), refused_in_turn(keys, SeededHash::build));
    let of_keys = || KeyHash::build_with_progress(0..100, KeyOptions::default(), nothing);
    assert_eq!(of(of_keys), of(|| KeyHash::build(0..100)));
}

#[test]
fn words_and_bits() {
    assert_eq!(of(|| words_from_bytes(&[7; 80])), 1);
    assert_eq!(of(|| Box::<[u64]>::try_with_64bit_segments(5, 9)), 1);
    assert_eq!(of(|| Box::<[u64]>::try_with_zeroed_bits(100)), 1);
    assert_eq!(of(|| Box::<[u64]>::try_with_filled_bits(100)), 1);
    assert_eq!(of(|| Box::<[u64]>::try_with_bitwords(5, 3, 100)), 1);
}

#[test]
fn shards() {
    let made = Index::build([7u64; 3]);
    let shards = [made.view(); 5];
    assert_eq!(of(|| PrefixCounts::new(&[10; 20], &[3; 20])), 2);
    assert_eq!(of(|| ShardedIndex::new(&shards)), 5); // shards, bits and 1 bits of each, and the sums of both
}

#[test]
fn lists_over_shards_need_no_memory() {
    let made = Index::build([7u64; 3]);
    let all = ShardedIndex::new(&[made.view(); 5]).expect("memory");
    let (queries, mut granted, mut refused) = ([0, 9, 44, 45, 960, 961], [0; 6], [0; 6]);
    type List<'a> = fn(&ShardedIndex<'a>, &[u64], &mut [u64]) -> Result<usize, ListError>;
    let lists: [List<'_>; 4] =
        [ShardedIndex::rank_list, ShardedIndex::rank0_list, ShardedIndex::select_list, ShardedIndex::select0_list];
    for list in lists {
        let missing = list(&all, &queries, &mut granted);
        GRANTED.set(0);
        let without = list(&all, &queries, &mut refused);
        GRANTED.set(usize::MAX);
        assert_eq!((missing, granted), (without, refused));
    }
}

#[cfg(feature = "std")]
#[test]
fn files_that_are_read() {
    use bitm_proved::{bytes_of, words_from_file};
    let path = std::env::temp_dir().join(format!("bitm-allocations-{}", std::process::id()));
    let file = Index::build([7u64; 40]).to_stored(2560).expect("right");
    std::fs::write(&path, bytes_of(&file)).expect("written");
    let odd = path.with_extension("odd");
    std::fs::write(&odd, &bytes_of(&file)[..100]).expect("written");
    assert_eq!(of(|| Index::read(&path)), 2); // the words, and their owner
    assert_eq!(of(|| words_from_file(&odd)), 1);
    #[cfg(target_os = "linux")]
    assert!(of(|| words_from_file("/proc/self/auxv")) > 1);
    std::fs::remove_file(&path).and_then(|()| std::fs::remove_file(&odd)).expect("removed");
}
