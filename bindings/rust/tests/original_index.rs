//! Each item of the original's interface that has to do with ranks and selections: its name, its type, what it does.
#![allow(clippy::type_complexity, clippy::borrowed_box)]
use bitm_proved::{
    optimal_combined_sampling, select64, AdaptiveCombinedSamplingDensity, ArrayWithRank101111, ArrayWithRankSimple,
    BinaryRankSearch, CombinedSampling, CombinedSamplingDensity, ConstCombinedSamplingDensity, Rank, RankSelect101111,
    RankSimple, Select, Select0, Select0ForRank101111, SelectForRank101111,
};
use std::ops::Deref;

type Index<BV> = RankSelect101111<BinaryRankSearch, CombinedSampling, BV>;

/// What the impls of the original promise, for any strategies and any content.
fn promises<S, S0, BV>(content: BV) -> RankSelect101111<S, S0, BV>
where
    S: SelectForRank101111,
    S0: Select0ForRank101111,
    BV: Deref<Target = [u64]> + Clone,
{
    let _: fn(BV) -> (RankSelect101111<S, S0, BV>, usize) = RankSelect101111::build;
    let _: fn(&RankSelect101111<S, S0, BV>) -> &S = RankSelect101111::select_support;
    let _: fn(&RankSelect101111<S, S0, BV>) -> &S0 = RankSelect101111::select0_support;
    let made: RankSelect101111<S, S0, BV> = content.clone().into();
    fn all<T: Rank + Select + Select0 + AsRef<[u64]>>(_: &T) {}
    all(&made);
    assert_eq!(made.as_ref(), &*content);
    let (simple, ones): (RankSimple<BV>, u32) = RankSimple::build(content.clone());
    fn ranks<T: Rank + AsRef<[u64]>>(_: &T) {}
    ranks(&simple);
    let _: RankSimple<BV> = content.into();
    assert_eq!(Rank::rank(&simple, 1), made.rank(1));
    assert!(ones as usize >= made.rank(1));
    made
}

#[test]
fn the_index_of_any_content() {
    let words = [0b1011u64, 5, u64::MAX];
    promises::<BinaryRankSearch, BinaryRankSearch, &[u64]>(&words);
    promises::<CombinedSampling, BinaryRankSearch, Vec<u64>>(words.into());
    promises::<Slow, Slow, Box<[u64]>>(Box::new(words));
    let made = promises::<BinaryRankSearch, CombinedSampling, std::sync::Arc<[u64]>>(words.into());
    let _: &Box<[usize]> = &made.l1ranks;
    let _: &Box<[u64]> = &made.l2ranks;
    let _: &std::sync::Arc<[u64]> = &made.content;
    assert_eq!((made.clone().select(3), made.select0(0)), (64, 2));
    let _: Index<Vec<u64>> = vec![1].into();
    fn is_same<T>(_: T, _: T) {}
    let own: Box<[u64]> = Box::new(words);
    is_same(
        ArrayWithRank101111::build(own.clone()).0,
        RankSelect101111::<BinaryRankSearch, BinaryRankSearch, Box<[u64]>>::build(own.clone()).0,
    );
    is_same(ArrayWithRankSimple::build(own.clone()), RankSimple::build(own));
    let simple = RankSimple::build(&words[..]).0.clone();
    let _: (Option<u32>, u32) = (simple.try_rank(64), simple.rank(64));
}

#[test]
fn methods_of_the_traits() {
    type A = ArrayWithRank101111;
    let _: [fn(&A, usize) -> Option<usize>; 4] = [A::try_rank, A::try_rank0, A::try_select, A::try_select0];
    let _: [fn(&A, usize) -> usize; 4] = [A::rank, A::rank0, A::select, A::select0];
    let _: [unsafe fn(&A, usize) -> usize; 4] =
        [A::rank_unchecked, A::rank0_unchecked, A::select_unchecked, A::select0_unchecked];
    let _: fn(&A, usize) = A::prefetch;
    let dynamic: [Box<dyn Rank>; 2] =
        [Box::new(A::build(Box::new([7])).0), Box::new(ArrayWithRankSimple::build(Box::new([7])).0)];
    assert!(dynamic.iter().all(|it| it.rank(2) == 2));
    let selects: [&dyn Select; 1] = [&A::build(Box::new([7])).0];
    let selects0: [&dyn Select0; 1] = [&A::build(Box::new([7])).0];
    assert_eq!((selects[0].select(2), selects0[0].select0(0)), (2, 3));
}

/// Users' types with exactly the methods that the original requires.
struct Own;
impl Rank for Own {
    fn try_rank(&self, index: usize) -> Option<usize> {
        (index <= 10).then_some(index / 2)
    }
}
impl Select for Own {
    fn try_select(&self, rank: usize) -> Option<usize> {
        (rank < 5).then_some(2 * rank + 1)
    }
}
impl Select0 for Own {
    fn try_select0(&self, rank: usize) -> Option<usize> {
        (rank < 5).then_some(2 * rank)
    }
}

/// Keeps how many words, upper and lower entries and 1 bits it was made for.
struct Slow([usize; 4]);
impl SelectForRank101111 for Slow {
    fn new(content: &[u64], l1ranks: &[usize], l2ranks: &[u64], total_rank: usize) -> Self {
        Slow([content.len(), l1ranks.len(), l2ranks.len(), total_rank])
    }
    fn select(&self, content: &[u64], _: &[usize], _: &[u64], rank: usize) -> Option<usize> {
        bitm_proved::BitAccess::bit_ones(content).nth(rank)
    }
}
impl Select0ForRank101111 for Slow {
    fn new0(content: &[u64], l1ranks: &[usize], l2ranks: &[u64], total_rank: usize) -> Self {
        Slow([content.len(), l1ranks.len(), l2ranks.len(), total_rank])
    }
    fn select0(&self, content: &[u64], _: &[usize], _: &[u64], rank: usize) -> Option<usize> {
        bitm_proved::BitAccess::bit_zeros(content).nth(rank)
    }
}

#[derive(Clone, Copy)]
struct Nine;
impl CombinedSamplingDensity for Nine {
    type SamplingDensity = u16;
    fn density_for(_: usize, _: usize) -> u16 {
        9
    }
    fn items_per_sample_log2(density: u16) -> u8 {
        density as u8
    }
}

#[test]
fn users_own_types() {
    assert_eq!((Own.rank(4), Own.rank0(5), Own.try_rank0(11)), (2, 3, None));
    assert_eq!((Own.select(2), Own.select0(2)), (5, 4));
    // SAFETY: all of these are there.
    let same = unsafe { (Own.rank_unchecked(4), Own.rank0_unchecked(4), Own.select_unchecked(0)) };
    assert_eq!(same, (2, 2, 1));
    let (slow, _) = RankSelect101111::<Slow, Slow>::build(Box::new([0b1011]));
    assert_eq!((slow.select(2), slow.try_select(3), slow.select0(0)), (3, None, 2));
    assert_eq!((slow.select_support().0, slow.select0_support().0), ([1, 1, 1, 3], [1, 1, 1, 3]));
    // SAFETY: both are there.
    let same = unsafe {
        let finds = (Slow([0; 4]), [0b1011u64]);
        let ones = finds.0.select_unchecked(&finds.1, &[], &[], 1);
        (ones, finds.0.select0_unchecked(&finds.1, &[], &[], 1))
    };
    assert_eq!(same, (1, 4));
    let nine = RankSelect101111::<CombinedSampling<Nine>>::build(vec![u64::MAX; 99].into()).0;
    assert_eq!((nine.select(6000), nine.try_select(6336)), (6000, None));
}

#[test]
fn strategies_and_densities() {
    fn strategy<T: SelectForRank101111 + Select0ForRank101111 + Clone>(_: Option<T>) {}
    strategy::<BinaryRankSearch>(None);
    strategy::<CombinedSampling>(None);
    strategy::<CombinedSampling<ConstCombinedSamplingDensity<8>>>(None);
    strategy::<CombinedSampling<Nine>>(None);
    fn unit<T: Copy + Clone>(_: T) {}
    unit(BinaryRankSearch);
    unit(ConstCombinedSamplingDensity::<13>);
    unit(AdaptiveCombinedSamplingDensity::<13>);
    let _: (ConstCombinedSamplingDensity, AdaptiveCombinedSamplingDensity) =
        (ConstCombinedSamplingDensity, AdaptiveCombinedSamplingDensity);
    fn is<D: CombinedSamplingDensity<SamplingDensity = T>, T>() {
        let _: fn(usize, usize) -> D::SamplingDensity = D::density_for;
        let _: fn(D::SamplingDensity) -> u8 = D::items_per_sample_log2;
        let _: fn(D::SamplingDensity) -> u32 = D::items_per_sample;
        let _: fn(usize, D::SamplingDensity) -> usize = D::divide;
        let _: fn(usize, D::SamplingDensity) -> bool = D::is_in_second_half;
    }
    is::<ConstCombinedSamplingDensity<7>, ()>();
    is::<AdaptiveCombinedSamplingDensity<7>, u8>();
    is::<Nine, u16>();
    let _: unsafe fn(u64, u8) -> u8 = select64;
    const LOG2: u8 = optimal_combined_sampling(500, 1000, 13);
    assert_eq!(LOG2, 12);
    fn takes<S: SelectForRank101111>() {
        let _: fn(&[u64], &[usize], &[u64], usize) -> S = S::new;
        let _: fn(&S, &[u64], &[usize], &[u64], usize) -> Option<usize> = S::select;
        let _: unsafe fn(&S, &[u64], &[usize], &[u64], usize) -> usize = S::select_unchecked;
    }
    takes::<CombinedSampling>();
    fn takes0<S: Select0ForRank101111>() {
        let _: fn(&[u64], &[usize], &[u64], usize) -> S = S::new0;
        let _: fn(&S, &[u64], &[usize], &[u64], usize) -> Option<usize> = S::select0;
        let _: unsafe fn(&S, &[u64], &[usize], &[u64], usize) -> usize = S::select0_unchecked;
    }
    takes0::<BinaryRankSearch>();
}

#[test]
fn rank_at_the_exact_end() {
    let (bits, ones) = ArrayWithRank101111::build(Box::new([0b1011, 1]));
    let simple = ArrayWithRankSimple::build(Box::new([0b1011, 1])).0;
    let wanted = (!cfg!(feature = "original-end")).then_some(ones);
    assert_eq!((bits.try_rank(128), simple.try_rank(128).map(|it| it as usize)), (wanted, wanted));
    assert_eq!(bits.try_rank0(128), wanted.map(|it| 128 - it));
    assert_eq!((bits.try_rank(127), bits.try_rank(129)), (Some(4), None));
}
