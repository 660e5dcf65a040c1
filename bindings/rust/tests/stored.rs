//! Files: what is written is read back, headers that lie and bytes that are cut or begin elsewhere are refused, and
//! parts that are spoilt never lead outside.
mod common;
use bitm_proved::{
    bytes_of, sections, ArrayWithRank101111, BinaryRankSearch, CombinedSampling, ConstCombinedSamplingDensity,
    EliasFano, Index, IndexView, Kind, Queries, Rank, RankSelect101111, Sampling, Select, Select0,
    Select0ForRank101111, SelectForRank101111, SelectionStrategy, Sequence, SequenceView, StoredError, WrongTables,
};
use common::{bits_of, first_section, other_kind, positions_of, Random};

fn as_a_list<T: Queries + Rank + Select + Select0>(index: &T, plain: &[bool], random: &mut Random) {
    let (ones, zeros) = (positions_of(plain, true), positions_of(plain, false));
    assert_eq!(index.view().len(), plain.len());
    for _ in 0..800 {
        let i = random.below(plain.len() + 2);
        let before = ones.partition_point(|it| *it < i);
        let inside = i <= plain.len();
        assert_eq!(index.try_rank(i), inside.then_some(before));
        assert_eq!(index.try_rank0(i), inside.then(|| i - before));
        assert_eq!(index.try_select(i), ones.get(i).copied());
        assert_eq!(index.try_select0(i), zeros.get(i).copied());
        assert_eq!(index.view().get(i), plain.get(i).copied());
    }
}

fn comes_back<S, S0>(kinds: (bool, bool), random: &mut Random)
where
    S: SelectionStrategy + SelectForRank101111,
    S0: SelectionStrategy + Select0ForRank101111,
{
    for count in [0usize, 1, 63, 64, 65, 2048, 5000] {
        let words = random.words(count.div_ceil(64) + 1);
        let plain = bits_of(&words, count);
        let made = RankSelect101111::<S, S0, _>::build(words).0;
        let past = made.to_stored(64 * made.content.len() + 1);
        assert_eq!(past.err(), Some(StoredError::WrongLength));
        let file = made.to_stored(count).expect("so many bits are there");
        let read = IndexView::from_words(&file).expect("just written");
        let kept = (read.samples(true).is_some(), read.samples(false).is_some());
        assert_eq!((kept, read.check()), (kinds, true));
        as_a_list(&read, &plain, random);
        assert_eq!(read.to_words(), Ok(file.clone()));
        let again = Index::from_bytes(bytes_of(&file)).expect("words are aligned");
        as_a_list(&again, &plain, random);
        assert_eq!(again.to_stored(count), Ok(file.clone()));
        let other = SequenceView::from_words(&file).err();
        assert_eq!(other, other_kind(Kind::Index, Kind::Sequence));
        as_a_list(&Index::from_words(file).expect("just written"), &plain, random);
    }
}

#[test]
fn indexes_come_back() {
    type Sampled = CombinedSampling<ConstCombinedSamplingDensity<7>>;
    let mut random = Random(16);
    comes_back::<BinaryRankSearch, BinaryRankSearch>((false, false), &mut random);
    comes_back::<Sampled, BinaryRankSearch>((true, false), &mut random);
    comes_back::<BinaryRankSearch, Sampled>((false, true), &mut random);
    comes_back::<CombinedSampling, Sampled>((true, true), &mut random);
}

#[test]
fn fewer_bits_are_stored_with_samples_of_their_own() {
    let mut random = Random(17);
    let words = random.words(100);
    let sampling = Sampling { ones: Some(7), zeros: Some(9) };
    let made = Index::try_build(words.clone(), 6400, sampling).expect("6400 bits");
    for bits in [0, 1, 64, 3000, 6399, 6400] {
        let file = made.to_stored(bits).expect("so many bits are there");
        let read = IndexView::from_words(&file).expect("just written");
        as_a_list(&read, &bits_of(&words, bits), &mut random);
        let log2 = [true, false].map(|one| read.samples(one).map(|it| it.log2));
        assert_eq!((log2, read.check()), ([Some(7), Some(9)], true));
    }
}

#[test]
fn samples_stand_in_sections_after_those_of_the_index() {
    let words: Vec<u64> = (0..40).map(|i| u64::from(i % 2 == 0) * u64::MAX).collect(); // 1280 bits of each kind
    let sampling = Sampling { ones: Some(7), zeros: Some(8) };
    let file = Index::try_build(words, 2560, sampling).expect("2560 bits").to_stored(2560).expect("right");
    let found: Vec<_> = (0..8).map_while(|i| sections::section(&file, i).expect("a block")).collect();
    let roles: Vec<u64> = found.iter().map(|it| it.role).collect();
    assert_eq!(roles, [1, 2, 3, 7, 0x3161_7473_6d74_6962, 8, 0x3061_7473_6d74_6962]);
    let counts: Vec<usize> = found[3..].iter().map(|it| it.count).collect();
    assert_eq!(counts, [10, 16, 5, 16]); // 1280 bits by 128 and by 256; two numbers of eight bytes each
    assert_eq!((found[4].words, found[6].words), (&[7, 0][..], &[8, 0][..]));
}

/// A block of 2560 bits, half of them 1 bits, with those two sections after its own.
fn sampled_by(samples: (u64, usize, &[u64]), starts: (u64, usize, &[u64])) -> Vec<u64> {
    let file = Index::build([0xFFFF_FFFFu64; 40]).to_stored(2560).expect("right");
    let one = sections::extended(&file, samples.0, samples.1, samples.2).expect("a section");
    sections::extended(&one, starts.0, starts.1, starts.2).expect("a section")
}

#[test]
fn samples_of_lengths_that_no_index_has_are_left_out_and_no_answer_depends_on_any() {
    let (ones, zeros, role) = (0x3161_7473_6d74_6962, 0x3061_7473_6d74_6962, 7);
    let any = [u64::MAX; 11];
    let kept = sampled_by((role, 20, &any[..10]), (ones, 16, &[7, u64::MAX]));
    let left = [
        sampled_by((role, 21, &any), (ones, 16, &[7, 0])), // of 2560 bits at most 20 are sampled
        sampled_by((role, 2, &any[..1]), (ones, 16, &[6, 0])),
        sampled_by((role, 2, &any[..1]), (ones, 16, &[32, 0])),
        sampled_by((role, 2, &any[..1]), (ones, 16, &[1 << 32 | 7, 0])),
        sampled_by((role, 2, &any[..1]), (ones, 15, &[7, 0])),
        sampled_by((role, 2, &any[..1]), (ones, 8, &[7])),
        sampled_by((role, 2, &any[..1]), (ones, 24, &[7, 0, 0])),
        sampled_by((role, 2, &any[..1]), (ones, 0, &[])),
        sampled_by((role, 2, &any[..1]), (zeros, 16, &[7, 0])),
        sampled_by((ones, 16, &[7, 0]), (role, 2, &any[..1])),
    ];
    for (file, has) in left.iter().map(|it| (it, false)).chain([(&kept, true)]) {
        let read = IndexView::from_words(file).expect("an index");
        assert_eq!((read.samples(true).is_some(), read.samples(false)), (has, None));
        assert!((0..1280).all(|rank| read.select(rank) == rank / 32 * 64 + rank % 32));
        assert_eq!(read.to_words().as_ref(), Ok(file));
    }
}

#[test]
fn tables_that_are_not_those_of_the_words_are_not_stored() {
    let words = [7u64; 40];
    let wrong = IndexView::new(&words, 2560, &[1], &[0, 0]).expect("lengths that fit");
    assert_eq!(wrong.to_words(), Err(StoredError::WrongTables));
    let made = EliasFano::build(&[2, 3, 5]).expect("sorted");
    let [low, _, upper, lower] = made.view().parts();
    let wrong = SequenceView::new(3, made.view().width(), [low, &[0], upper, lower]).expect("lengths that fit");
    assert_eq!(wrong.to_words(), Err(StoredError::WrongTables));
    let right = SequenceView::new(3, made.view().width(), made.view().parts()).expect("its own parts");
    assert_eq!(right.to_words(), made.to_stored());
}

#[test]
fn headers_that_lie_and_bytes_that_are_cut_or_begin_elsewhere_are_refused() {
    let made: ArrayWithRank101111 = vec![0xF0F0; 40].into_boxed_slice().into();
    let good = made.to_stored(2500).expect("so many bits are there");
    let not_whole = Some(StoredError::NotWhole);
    for at in 0..192 {
        let mut file = good.clone();
        file[at / 8] ^= 1 << (8 * (at % 8) + at % 7);
        assert_eq!(IndexView::from_words(&file).err(), not_whole);
        assert_eq!(SequenceView::from_words(&file).err(), not_whole);
    }
    for end in 0..8 * good.len() {
        assert_eq!(Index::from_bytes(&bytes_of(&good)[..end]).err(), not_whole);
    }
    let mut moved = vec![0; 8 * good.len() + 16];
    let begin = moved.as_ptr().align_offset(8);
    for by in 0..8 {
        let room = &mut moved[begin + by..][..8 * good.len()];
        room.copy_from_slice(bytes_of(&good));
        let wanted = (by > 0).then_some(StoredError::Misaligned);
        assert_eq!(IndexView::from_bytes(room).err(), wanted);
        let wanted = wanted.or(other_kind(Kind::Index, Kind::Sequence));
        assert_eq!(Sequence::from_bytes(&*room).err(), wanted);
        assert_eq!(SequenceView::from_bytes(room).err(), wanted);
    }
}

#[test]
fn spoilt_parts_never_lead_outside() {
    let mut random = Random(18);
    let words: Vec<u64> = (0..79).map(|_| random.next() & random.next()).collect();
    let sampling = Sampling { ones: Some(7), zeros: Some(7) };
    let made = Index::try_build(words, 5000, sampling).expect("5000 bits");
    let good = made.to_stored(5000).expect("so many bits are there");
    let mut wrong = 0;
    for at in first_section(&good)..good.len() {
        let mut file = good.clone();
        file[at] ^= random.next() | 1;
        let read = IndexView::from_words(&file).expect("the header is right");
        for _ in 0..50 {
            let query = random.below(5001);
            match read.checked_rank(query) {
                Ok(rank) => assert!(rank.expect("inside") <= query),
                Err(WrongTables) => wrong += 1,
            }
            for (found, one) in [(read.checked_select(query), true), (read.checked_select0(query), false)] {
                match found {
                    Ok(Some(position)) => assert_eq!(read.get(position), Some(one)),
                    Ok(None) => {}
                    Err(WrongTables) => wrong += 1,
                }
            }
        }
    }
    assert!(wrong > 0);
}

#[test]
fn spoilt_sequences_never_lead_outside() {
    let mut random = Random(19);
    let items: Vec<u64> = (0..1000).map(|i| 1000 * i + random.next() % 1000).collect();
    let good = EliasFano::build(&items).expect("sorted").to_stored().expect("right");
    let mut wrong = 0;
    for at in first_section(&good)..good.len() {
        let mut file = good.clone();
        file[at] ^= random.next() | 1;
        let read = Sequence::from_words(&file).expect("the header is right");
        let view = read.view();
        for _ in 0..20 {
            let value = random.next() % 1_000_000;
            for found in [view.checked_first_at_least(value), view.checked_last_at_most(value)] {
                match found {
                    Ok(Some(index)) => assert!(index < 1000),
                    Ok(None) => {}
                    Err(WrongTables) => wrong += 1,
                }
            }
            wrong += usize::from(view.checked_get(random.below(1000)).is_err());
            wrong += usize::from(view.checked_contains(value).is_err());
        }
    }
    assert!(wrong > 0);
}
