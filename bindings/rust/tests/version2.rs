//! Files of format version 2, which an earlier release wrote: they are read, and what is spoilt in them never leads
//! outside.
mod common;
use bitm_proved::{
    bytes_of, words_from_bytes, Index, IndexView, Kind, Queries, Rank, Sampling, Select, Select0, Sequence,
    SequenceView, StoredError, WrongTables,
};
use common::{other_kind, Random};

/// 300 bits, of which each third is a 1 bit; 3000 bits of this sort with samples of both kinds; the first hundred
/// squares.
const INDEX: &[u8] = include_bytes!("common/index.v2");
const SAMPLED: &[u8] = include_bytes!("common/sampled_index.v2");
const SQUARES: &[u8] = include_bytes!("common/sequence.v2");

fn words(file: &[u8]) -> Vec<u64> {
    words_from_bytes(file).expect("memory")
}

/// Words whose every third bit is a 1 bit, among the first `len`.
fn thirds(len: usize) -> Vec<u64> {
    let mut words = vec![0; len.div_ceil(64)];
    (0..len).step_by(3).for_each(|at| words[at / 64] |= 1 << (at % 64));
    words
}

#[test]
fn an_index_is_read_and_answers() {
    for (file, len, samples) in [(INDEX, 300, [None; 2]), (SAMPLED, 3000, [Some(7), Some(8)])] {
        let index = Index::from_words(words(file)).expect("a file of version 2");
        assert_eq!((index.view().len(), index.view().words()), (len, &thirds(len)[..]));
        assert_eq!([true, false].map(|one| index.view().samples(one).map(|it| it.log2)), samples);
        assert!(index.check());
        for at in 0..len {
            assert_eq!(index.rank(at), at.div_ceil(3));
            let (rank, found) =
                (at / 3, if at % 3 == 0 { Index::select } else { |it: &Index<_>, rank| it.select0(rank) });
            assert_eq!(found(&index, if at % 3 == 0 { rank } else { at - rank - 1 }), at);
        }
        assert_eq!((index.rank(len), index.try_rank(len + 1), index.try_select(len / 3)), (len / 3, None, None));
    }
}

#[test]
fn a_sequence_is_read_and_answers() {
    let squares = Sequence::from_words(words(SQUARES)).expect("a file of version 2");
    assert!(squares.check() && squares.iter().eq((0..100).map(|i| i * i)));
    assert_eq!((squares.first_at_least(50), squares.last_at_most(50), squares.get(100)), (Some(8), Some(7), None));
}

#[test]
fn what_was_read_is_stored_as_a_block() {
    let sampling = Sampling { ones: Some(7), zeros: Some(8) };
    for (file, len, sampling) in [(INDEX, 300, Sampling::default()), (SAMPLED, 3000, sampling)] {
        let read = Index::from_words(words(file)).expect("a file of version 2");
        let made = Index::try_build(thirds(len), len, sampling).expect("so many bits");
        assert_eq!(read.to_stored(len), made.to_stored(len));
    }
    let read = Sequence::from_words(words(SQUARES)).expect("a file of version 2");
    let squares: Vec<u64> = (0..100).map(|i| i * i).collect();
    assert_eq!(read.to_stored(), bitm_proved::EliasFano::build(&squares).expect("sorted").to_stored());
    assert_eq!(read.try_clone().map(|it| it.into_owner()), Ok(words(SQUARES)));
}

#[test]
fn spoilt_headers_other_kinds_and_cut_files_are_refused() {
    for file in [INDEX, SAMPLED, SQUARES] {
        for bit in 0..8 * 192 {
            let mut spoilt = words(file);
            spoilt[bit / 64] ^= 1 << (bit % 64);
            assert_eq!(IndexView::from_words(&spoilt).err(), Some(StoredError::NotWhole));
            assert_eq!(SequenceView::from_words(&spoilt).err(), Some(StoredError::NotWhole));
        }
        for end in 0..words(file).len() {
            assert_eq!(IndexView::from_words(&words(file)[..end]).err(), Some(StoredError::NotWhole));
            assert_eq!(SequenceView::from_words(&words(file)[..end]).err(), Some(StoredError::NotWhole));
        }
    }
    assert_eq!(Sequence::from_words(words(SAMPLED)).err(), other_kind(Kind::Index, Kind::Sequence));
    assert_eq!(Index::from_bytes(bytes_of(&words(SQUARES))).err(), other_kind(Kind::Sequence, Kind::Index));
}

/// Whether an index that may be spoilt answers inside; how often it says that it is.
fn asked(read: &IndexView<'_>, random: &mut Random) -> usize {
    let (len, mut wrong) = (read.len(), 0);
    for _ in 0..50 {
        let query = random.below(len + 1);
        match read.checked_rank(query) {
            Ok(rank) => assert!(rank.expect("inside") <= query),
            Err(WrongTables) => wrong += 1,
        }
        for (found, one) in [(read.checked_select(query), true), (read.checked_select0(query), false)] {
            match found {
                Ok(Some(position)) => assert_eq!(read.get(position), Some(one)),
                Ok(None) => {}
                Err(WrongTables) => wrong += 1,
            }
        }
    }
    wrong
}

#[test]
fn spoilt_parts_never_lead_outside() {
    let (mut random, mut wrong) = (Random(18), 0);
    for file in [INDEX, SAMPLED] {
        for at in 24..words(file).len() {
            let mut spoilt = words(file);
            spoilt[at] ^= random.next() | 1;
            wrong += asked(&IndexView::from_words(&spoilt).expect("the header is right"), &mut random);
        }
    }
    for at in 24..words(SQUARES).len() {
        let mut spoilt = words(SQUARES);
        spoilt[at] ^= random.next() | 1;
        let read = SequenceView::from_words(&spoilt).expect("the header is right");
        for value in [0, 50, 5000, 9801, u64::MAX] {
            let found = [read.checked_first_at_least(value), read.checked_last_at_most(value)];
            assert!(found.iter().all(|it| it.map_or(true, |it| it.is_none_or(|index| index < 100))));
            wrong += found.iter().filter(|it| it.is_err()).count();
        }
    }
    assert!(wrong > 0);
}

#[test]
fn a_check_finds_tables_that_do_not_fit() {
    let mut spoilt = words(INDEX);
    spoilt[24] ^= 1; // the first word has one 1 bit fewer
    let read = Index::from_words(spoilt).expect("the header is right");
    assert!(!read.check());
    assert_eq!(read.to_stored(300), Err(StoredError::WrongTables));
}
