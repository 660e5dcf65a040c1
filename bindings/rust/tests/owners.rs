//! Owners of words or bytes: moved, shared between threads, used after panics; errors and panics.
mod common;
use bitm_proved::{
    bytes_of, ArrayWithRank101111, BitAccess, BitIterator, BitOnesIterator, BitVec, BuildError, EliasFano, EqualPair,
    Index, IndexView, ListError, NoMemory, Numbers, PerfectHash, Queries, Rank, RankSelect101111, RankSimple, Sampling,
    Select, Select0, Sequence, SequenceView, StoredError, WrongTables,
};
use common::{says, Fickle};
use std::cell::RefCell;
use std::error::Error;
use std::panic::{RefUnwindSafe, UnwindSafe};
use std::sync::Arc;

#[test]
fn any_owner_has_an_index_over_its_words() {
    let words = vec![0b1011u64, 7, 0, u64::MAX];
    fn try_owner<O: AsRef<[u64]>>(owner: O) {
        let mut many: Vec<Index<O>> = vec![Index::build(owner)];
        many.reserve(100); // moves it
        let index = Box::new(many.remove(0));
        assert_eq!((index.rank(256), index.select(6), index.select0(0)), (70, 192, 2));
        assert_eq!(index.owner().as_ref().len(), 4);
        assert_eq!(index.into_owner().as_ref()[1], 7);
    }
    try_owner(&words[..]);
    try_owner(words.clone());
    try_owner(words.clone().into_boxed_slice());
    try_owner(Arc::<[u64]>::from(&words[..]));
    try_owner(<[u64; 4]>::try_from(&words[..]).expect("four")); // inline: moved into memory of its own
    try_owner(std::borrow::Cow::Borrowed(&words[..]));
}

#[test]
fn an_owner_that_borrows_other_words_does_no_harm() {
    let fickle = Fickle(vec![7; 50], vec![1], false.into());
    let index = Index::try_build(fickle, 3200, Sampling::default()).expect("the first words");
    assert_eq!((index.rank(3200), index.select(149)), (150, 49 * 64 + 2));
}

#[test]
fn all_types_are_send_sync_and_unwind_safe() {
    fn all<T: Send + Sync + UnwindSafe + RefUnwindSafe>() {}
    all::<Index<Vec<u64>>>();
    all::<Index<Arc<[u64]>>>();
    all::<IndexView<'_>>();
    all::<ArrayWithRank101111>();
    all::<RankSelect101111<bitm_proved::CombinedSampling, bitm_proved::CombinedSampling>>();
    all::<RankSimple>();
    all::<EliasFano>();
    all::<Sequence<&[u8]>>();
    all::<SequenceView<'_>>();
    all::<Numbers<'_>>();
    all::<PerfectHash>();
    all::<(BitOnesIterator<'_>, BitIterator<'_>)>();
    all::<(BuildError, StoredError, ListError, NoMemory, WrongTables)>();
    let index = Index::build(vec![0b1011u64; 100]);
    std::thread::scope(|threads| {
        for _ in 0..4 {
            threads.spawn(|| (0..300).for_each(|i| assert_eq!(index.select(i) / 64, i / 3)));
        }
    });
}

#[test]
fn errors_are_errors_and_say_the_numbers() {
    let errors: [Box<dyn Error + Send + Sync>; 9] = [
        Box::new(NoMemory { bytes: 80 }),
        Box::new(WrongTables),
        Box::new(BuildError::TooLong { len: 9 }),
        Box::new(BuildError::NotSorted { index: 3, number: 4, before: 9 }),
        Box::new(BuildError::EqualHashes { left: 2, pair: EqualPair::Hashes { hash: 5 } }),
        Box::new(BuildError::NoMemory(NoMemory { bytes: 80 })),
        Box::new(StoredError::Misaligned),
        Box::new(ListError::Lengths { queries: 7, room: 6 }),
        Box::new(ListError::WrongTables { wrong: 5 }),
    ];
    let texts: Vec<String> = errors.iter().map(|it| it.to_string()).collect();
    assert_eq!(
        texts,
        [
            "memory for 80 bytes was refused",
            "the tables do not match the words",
            "a length is too great: 9",
            "number 3 (4) is less than number 2 (9)",
            "the hash 5 is there more than once",
            "memory for 80 bytes was refused",
            "the bytes do not begin at a multiple of 8",
            "there is room for 6 answers to 7 queries",
            "the tables do not match the words: 5 answers show it",
        ]
    );
    fn fails() -> Result<usize, Box<dyn Error>> {
        let words = [0u64];
        let view = IndexView::new(&words, 64, &words, &[u64::MAX])?;
        Ok(view.checked_rank(64)?.unwrap_or(0))
    }
    assert!(fails().is_err_and(|why| why.is::<WrongTables>()));
}

#[test]
fn memory_that_is_not_there_is_an_error() {
    let bytes = 1 << 59;
    let refused = NoMemory { bytes };
    assert_eq!(Box::<[u64]>::try_with_zeroed_bits(1 << 62).err(), Some(refused));
    assert_eq!(Box::<[u64]>::try_with_filled_bits(1 << 62).err(), Some(refused));
    assert_eq!(Box::<[u64]>::try_with_bitwords(1, 64, 1 << 56).err(), Some(refused));
    let text = says(|| assert!(Box::<[u64]>::with_zeroed_bits(1 << 62).is_empty()));
    assert_eq!(text, "memory for 576460752303423488 bytes was refused");
}

#[test]
fn panics_say_the_numbers() {
    let cases: [(fn(), &str); 14] = [
        (|| assert!([0u64].get_bit(64)), "there is no bit 64 of 64 bits"),
        (|| [0u64].set_bit(70), "there is no bit 70 of 64 bits"),
        (
            || assert_eq!([0u64].get_bits(60, 5), 0),
            "5 bits from position 60 on are not all inside: there are 64, and at most 64 are taken",
        ),
        (
            || [0u64].set_fragment(9, 1, 7),
            "7 bits from position 63 on are not all inside: there are 64, and at most 64 are taken",
        ),
        (
            || assert_eq!([0u64].get_fragment(usize::MAX, 7), 0),
            "fragment 18446744073709551615 of 7 bits each begins at position 2^64 or later",
        ),
        (|| assert_eq!(BitIterator::with_range(&[0], 3..65).next(), None), "the range 3..65 ends past 64 bits"),
        (|| assert_eq!(BitOnesIterator::with_range(&[0], 3..65).next(), None), "the range 3..65 ends past 64 bits"),
        (|| assert_eq!(Index::build([7u64]).rank(65), 0), "rank of the first 65 bits: there are fewer"),
        (|| assert_eq!(Index::build([7u64]).select(3), 0), "there is no 1 bit with rank 3"),
        (|| assert_eq!(Index::build([7u64]).select0(61), 0), "there is no 0 bit with rank 61"),
        (|| assert_eq!(Index::build([7u64]).ones_in(0..65).next(), None), "the range 0..65 ends past 64 bits"),
        (
            || assert_eq!(bitm_proved::words::count(&[7], 65, true), 0),
            "65 bits are more than 1 words have, or these are 2^58 or more",
        ),
        (
            || assert!(Box::<[u64]>::with_bitwords(8, 3, 1).is_empty()),
            "8 does not fit into 3 bits, or these are more than 64",
        ),
        (
            || assert!(EliasFano::build(&[7]).is_ok_and(|it| it.range(0..2).next().is_none())),
            "the range 0..2 ends past 1 numbers",
        ),
    ];
    for (call, wanted) in cases {
        assert_eq!(says(call), wanted);
    }
}

/// A panic is where the call is, not in the crate.
#[test]
fn panics_name_the_callers_line() {
    thread_local!(static WHERE: RefCell<String> = const { RefCell::new(String::new()) });
    let before = std::panic::take_hook();
    std::panic::set_hook(Box::new(|why| {
        let file = why.location().map_or("", |it| it.file()).to_string();
        WHERE.with_borrow_mut(|it| *it = file);
    }));
    let calls: [fn(); 9] = [
        || assert_eq!(Index::build([7u64]).ones_in(0..65).next(), None),
        || assert_eq!(Index::build([7u64]).zeros_in(0..65).next(), None),
        || assert!([0u64].bit_in_range_iter(0..65).next().is_none()),
        || assert!(Box::<[u64]>::with_zeroed_bits(1 << 62).is_empty()),
        || [0u64].set_bit(64),
        || assert!([0u64].get_bits(1, 64) == 0),
        || assert_eq!(Index::build([7u64]).select(3), 0),
        || assert_eq!(ArrayWithRank101111::build(Box::new([7])).0.rank(65), 0),
        || assert!(EliasFano::build(&[7]).is_ok_and(|it| it.range(0..2).len() == 2)),
    ];
    let wheres = calls.map(|call| {
        says(call);
        WHERE.take()
    });
    std::panic::set_hook(before);
    assert!(wheres.iter().all(|it| it.ends_with("owners.rs")), "{wheres:?}");
}

/// Tables that a user wrote: a panic says that they are wrong, and no answer is `None` for it.
#[test]
fn tables_that_a_user_wrote_are_noticed() {
    let mut index = ArrayWithRank101111::build(vec![0b1011; 100].into_boxed_slice()).0;
    index.l2ranks = Box::new([]);
    let wrong = "the tables do not match the words";
    let index = Arc::new(index);
    for call in [ArrayWithRank101111::try_rank, ArrayWithRank101111::try_select, Select0::try_select0] {
        let index = index.clone();
        assert_eq!(says(move || assert_eq!(call(&index, 1), None)), wrong);
    }
    assert_eq!(index.checked_select(1), Err(WrongTables));
    let file = index.to_stored(64).map(|it| bytes_of(&it).len());
    assert!(file.is_ok(), "fewer words have tables of their own");
}

#[test]
fn the_archive_is_of_this_version() {
    let numbers = env!("CARGO_PKG_VERSION").split('.').map(|it| it.parse().unwrap_or(0));
    let version: u32 = numbers.fold(0, |all, it: u32| 100 * all + it);
    assert_eq!(bitm_proved::library_version() / 100, version / 100);
}
