//! Every query of every kind of index beside plain counting, over words that end inside a word, and over wrong tables.
mod common;
use bitm_proved::{
    BinaryRankSearch, CombinedSampling, ConstCombinedSamplingDensity, Index, IndexView, ListError, Queries, Rank,
    RankSelect101111, Sampling, Select, Select0, WrongTables, NO_ANSWER, WRONG_TABLES,
};
use common::{bits_of, positions_of, Random};

/// What plain counting says of bits.
struct Plain {
    bits: Vec<bool>,
    before: Vec<usize>,
    positions: [Vec<usize>; 2],
}

impl Plain {
    fn of(bits: Vec<bool>) -> Self {
        let mut before = vec![0];
        for bit in &bits {
            before.push(before[before.len() - 1] + usize::from(*bit));
        }
        let positions = [positions_of(&bits, false), positions_of(&bits, true)];
        Plain { bits, before, positions }
    }

    fn rank(&self, one: bool, at: usize) -> Option<usize> {
        let ones = *self.before.get(at)?;
        Some(if one { ones } else { at - ones })
    }

    fn select(&self, one: bool, rank: usize) -> Option<usize> {
        self.positions[usize::from(one)].get(rank).copied()
    }

    fn next(&self, one: bool, from: usize) -> Option<usize> {
        let all = &self.positions[usize::from(one)];
        all.get(all.partition_point(|it| *it < from)).copied()
    }

    fn previous(&self, one: bool, from: usize) -> Option<usize> {
        let all = &self.positions[usize::from(one)];
        let after = all.partition_point(|it| *it <= from);
        after.checked_sub(1).map(|it| all[it])
    }
}

/// Single queries, at each position or at random ones.
fn single<T: Queries>(index: &T, plain: &Plain, random: &mut Random) {
    let len = plain.bits.len();
    let some: Vec<usize> = match len {
        0..=500 => (0..len + 3).collect(),
        _ => (0..500).map(|_| random.below(len + 2)).collect(),
    };
    for at in some.into_iter().chain([len, usize::MAX]) {
        assert_eq!(index.checked_rank(at), Ok(plain.rank(true, at)));
        assert_eq!(index.checked_rank0(at), Ok(plain.rank(false, at)));
        assert_eq!(index.checked_select(at), Ok(plain.select(true, at)));
        assert_eq!(index.checked_select0(at), Ok(plain.select(false, at)));
        for one in [true, false] {
            assert_eq!(index.checked_next(one, at), Ok(plain.next(one, at)));
            assert_eq!(index.checked_previous(one, at), Ok(plain.previous(one, at)));
        }
        assert_eq!(index.next_one(at), plain.next(true, at));
        assert_eq!(index.next_zero(at), plain.next(false, at));
        assert_eq!(index.previous_one(at), plain.previous(true, at));
        assert_eq!(index.previous_zero(at), plain.previous(false, at));
    }
    assert_eq!(index.count_ones(), plain.positions[1].len());
    assert_eq!(index.count_zeros(), plain.positions[0].len());
    assert!(index.ones().eq(plain.positions[1].iter().copied()));
    assert!(index.zeros().eq(plain.positions[0].iter().copied()));
    assert!(index.bits().eq(plain.bits.iter().copied()));
}

type List<T> = fn(&T, &[usize], &mut [usize]) -> Result<usize, ListError>;

fn lists<T: Queries>(index: &T, plain: &Plain, random: &mut Random) {
    let queries: Vec<usize> = (0..70).map(|_| random.below(plain.bits.len() + 2)).collect();
    let rank = |one| queries.iter().map(move |it| plain.rank(one, *it)).collect::<Vec<_>>();
    let select = |one| queries.iter().map(move |it| plain.select(one, *it)).collect::<Vec<_>>();
    let all: [(List<T>, Vec<Option<usize>>); 4] = [
        (T::rank_list, rank(true)),
        (T::rank0_list, rank(false)),
        (T::select_list, select(true)),
        (T::select0_list, select(false)),
    ];
    for (call, wanted) in all {
        let mut out = vec![7; queries.len()];
        let missing = wanted.iter().filter(|it| it.is_none()).count();
        assert_eq!(call(index, &queries, &mut out), Ok(missing));
        assert!(out.iter().zip(&wanted).all(|(mine, it)| *mine == it.unwrap_or(NO_ANSWER)));
        let short = ListError::Lengths { queries: 70, room: 69 };
        out.fill(7);
        assert_eq!(call(index, &queries, &mut out[1..]), Err(short));
        assert!(out.iter().all(|it| *it == 7));
        assert_eq!(call(index, &[], &mut []), Ok(0));
    }
}

/// The traits of the original, whose answers are those of plain counting.
fn traits<T: Rank + Select + Select0>(index: &T, plain: &Plain, random: &mut Random, to: usize) {
    for _ in 0..200 {
        let at = random.below(to + 1);
        assert_eq!(index.try_rank(at), plain.rank(true, at));
        assert_eq!(index.try_rank0(at), plain.rank(false, at));
        assert_eq!(index.try_select(at), plain.select(true, at));
        assert_eq!(index.try_select0(at), plain.select(false, at));
    }
}

#[test]
fn all_kinds_of_indexes_count() {
    type Sampled = CombinedSampling<ConstCombinedSamplingDensity<7>>;
    let mut random = Random(7);
    for len in [0usize, 1, 2, 3, 31, 32, 33, 64, 65, 200, 1000] {
        for _ in 0..3 {
            let words = random.words(len);
            let plain = Plain::of(bits_of(&words, 64 * len));
            let search = RankSelect101111::<BinaryRankSearch, Sampled, _>::build(&words[..]).0;
            let adaptive = RankSelect101111::<CombinedSampling, CombinedSampling, _>::build(words.clone()).0;
            let owner = Index::build(words.clone());
            single(&search, &plain, &mut random);
            single(&adaptive, &plain, &mut random);
            single(&owner, &plain, &mut random);
            lists(&search, &plain, &mut random);
            lists(&adaptive, &plain, &mut random);
            if len > 0 {
                // With the feature `original-end` these have no rank at the exact end.
                traits(&search, &plain, &mut random, 64 * len - 1);
                traits(&&adaptive, &plain, &mut random, 64 * len - 1);
            }
            traits(&owner, &plain, &mut random, 64 * len + 2);
            traits(&std::sync::Arc::new(owner), &plain, &mut random, 64 * len + 2);
            traits(&search.view(), &plain, &mut random, 64 * len + 2);
            assert!(search.view().check() && adaptive.view().check());
        }
    }
}

#[test]
fn what_lies_past_the_length_is_neither_counted_nor_found() {
    let mut random = Random(8);
    for len in [0usize, 1, 63, 64, 65, 127, 2047, 2048, 2049, 5000] {
        let words = random.words(len.div_ceil(64) + random.0 as usize % 3);
        let plain = Plain::of(bits_of(&words, len));
        for sampling in [Sampling::default(), Sampling { ones: Some(7), zeros: Some(0) }] {
            let owner = Index::try_build(words.clone(), len, sampling).expect("so many bits are there");
            single(&owner, &plain, &mut random);
            lists(&owner, &plain, &mut random);
            traits(&owner, &plain, &mut random, len + 2);
            assert!(owner.check() && owner.view().len() == len);
            assert_eq!(owner.view().get(len), None);
            assert!((0..len).all(|it| owner.view().get(it) == Some(plain.bits[it])));
            let view = IndexView::new(&words, len, owner.view().upper(), owner.view().lower());
            single(&view.expect("the lengths are right"), &plain, &mut random);
        }
    }
}

/// Wrong tables and samples: a panic or an error says so, or the answer is inside and a bit of the kind.
#[test]
fn wrong_tables_never_lead_outside() {
    let mut random = Random(9);
    let (mut wrong, mut right) = (0, 0);
    for _ in 0..2000 {
        let len = 1 + random.below(80);
        let words = random.words(len);
        let plain = Plain::of(bits_of(&words, 64 * len));
        let made = Index::build(&words[..]);
        let (mut upper, mut lower) = (made.view().upper().to_vec(), made.view().lower().to_vec());
        let at = random.below(lower.len());
        lower[at] ^= random.next() >> random.below(60);
        upper[0] ^= u64::from(random.below(3) == 0) << random.below(64);
        let samples = bitm_proved::Samples {
            samples: &[random.next() as u32; 3],
            starts: &[random.next()],
            log2: random.next() as u32,
        };
        let view = IndexView::new(&words, 64 * len, &upper, &lower).expect("lengths");
        for view in [view, view.with_samples(true, samples).with_samples(false, samples)] {
            for _ in 0..20 {
                let query = random.below(64 * len + 1);
                match view.checked_rank(query) {
                    Ok(rank) => assert!(rank.expect("inside") <= query),
                    Err(WrongTables) => wrong += 1,
                }
                for one in [true, false] {
                    let found = if one { view.checked_select(query) } else { view.checked_select0(query) };
                    for found in [found, view.checked_next(one, query), view.checked_previous(one, query)] {
                        match found {
                            Ok(Some(position)) => assert_eq!(plain.bits[position], one),
                            Ok(None) => {}
                            Err(WrongTables) => wrong += 1,
                        }
                    }
                }
                let mut out = [0; 1];
                match view.rank_list(&[query], &mut out) {
                    Err(why) => assert_eq!((why, out), (ListError::WrongTables { wrong: 1 }, [WRONG_TABLES])),
                    Ok(missing) => assert_eq!((missing, out[0] <= query), (0, true)),
                }
                right += 1;
            }
        }
    }
    assert!(wrong > 1000 && right == 80_000);
}

/// Samples may hold anything: over right tables no answer is another.
#[test]
fn samples_are_a_hint() {
    let mut random = Random(10);
    for _ in 0..500 {
        let len = 1 + random.below(100);
        let words = random.words(len);
        let plain = Plain::of(bits_of(&words, 64 * len));
        let made = Index::build(&words[..]);
        let samples: Vec<u32> = (0..random.below(60)).map(|_| random.next() as u32).collect();
        let starts: Vec<u64> = (0..random.below(3)).map(|_| random.next()).collect();
        let log2 = random.below(40) as u32;
        let samples = bitm_proved::Samples { samples: &samples, starts: &starts, log2 };
        let view = made.view().with_samples(true, samples).with_samples(false, samples);
        traits(&view, &plain, &mut random, 64 * len + 1);
        lists(&view, &plain, &mut random);
    }
}
