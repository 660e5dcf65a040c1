//! Shards as one index of the joined bits, beside plain counting; which shard holds what; counts that are wrong.
mod common;
use bitm_proved::{build_tables, table_lens, BuildError, IndexView, ListError, Location, PrefixCounts, ShardedIndex};
use common::{bits_of, Random};

/// Words with their tables, of which the first bits count.
struct Shard {
    words: Vec<u64>,
    upper: Vec<u64>,
    lower: Vec<u64>,
    len: usize,
}

impl Shard {
    fn drawn(random: &mut Random) -> Self {
        let words: Vec<u64> = (0..random.below(9)).map(|_| random.next() & random.next()).collect();
        let lens = table_lens(words.len());
        let (mut upper, mut lower) = (vec![0; lens.0], vec![0; lens.1]);
        build_tables(&words, &mut upper, &mut lower);
        let len = (64 * words.len()).saturating_sub(random.below(64));
        Shard { words, upper, lower, len }
    }

    fn view(&self) -> IndexView<'_> {
        IndexView::new(&self.words, self.len, &self.upper, &self.lower).unwrap()
    }
}

#[test]
fn shards_are_counted_as_one() {
    let mut random = Random(7);
    for count in 0..8 {
        let shards: Vec<Shard> = (0..count).map(|_| Shard::drawn(&mut random)).collect();
        let views: Vec<IndexView<'_>> = shards.iter().map(Shard::view).collect();
        let all = ShardedIndex::new(&views).unwrap();
        let mut ranks = [0u64; 2];
        let mut at = 0u64;
        for (k, shard) in shards.iter().enumerate() {
            for (i, bit) in bits_of(&shard.words, shard.len).into_iter().enumerate() {
                let one = usize::from(bit);
                assert_eq!(all.rank(at), Ok(Some(ranks[1])));
                assert_eq!(all.rank0(at), Ok(Some(ranks[0])));
                assert_eq!(if bit { all.select(ranks[1]) } else { all.select0(ranks[0]) }, Ok(Some(at)));
                assert_eq!(all.counts().find(at), Some(Location { shard: k, within: i as u64 }));
                let of = if bit { all.counts().find_one(ranks[1]) } else { all.counts().find_zero(ranks[0]) };
                assert_eq!(of.map(|it| it.shard), Some(k));
                ranks[one] += 1;
                at += 1;
            }
        }
        assert_eq!((all.rank(at), all.rank(at + 1), all.rank0(u64::MAX)), (Ok(Some(ranks[1])), Ok(None), Ok(None)));
        assert_eq!((all.select(ranks[1]), all.select0(ranks[0]), all.counts().find(at)), (Ok(None), Ok(None), None));
    }
}

/// The joined bits, and shards of them.
fn joined(shards: &[Shard]) -> Vec<bool> {
    shards.iter().flat_map(|it| bits_of(&it.words, it.len)).collect()
}

#[test]
fn the_nearest_bits_are_those_of_the_joined_bits() {
    let mut random = Random(8);
    for count in 0..6 {
        let shards: Vec<Shard> = (0..count).map(|_| Shard::drawn(&mut random)).collect();
        let views: Vec<IndexView<'_>> = shards.iter().map(Shard::view).collect();
        let (all, bits) = (ShardedIndex::new(&views).unwrap(), joined(&shards));
        for from in (0..bits.len() + 2).chain([usize::MAX]) {
            for one in [true, false] {
                let next = (from..bits.len()).find(|at| bits[*at] == one).map(|at| at as u64);
                let before = (0..bits.len().min(from.saturating_add(1))).rev().find(|at| bits[*at] == one);
                let at = from as u64;
                let (after, ahead) = if one {
                    (all.next_one(at), all.previous_one(at))
                } else {
                    (all.next_zero(at), all.previous_zero(at))
                };
                assert_eq!((after, ahead), (Ok(next), Ok(before.map(|at| at as u64))));
            }
        }
    }
}

#[test]
fn lists_are_counted_in_the_joined_bits() {
    let mut random = Random(9);
    let shards: Vec<Shard> = (0..5).map(|_| Shard::drawn(&mut random)).collect();
    let views: Vec<IndexView<'_>> = shards.iter().map(Shard::view).collect();
    let (all, bits) = (ShardedIndex::new(&views).unwrap(), joined(&shards));
    let queries: Vec<u64> = (0..(1 << 17) + 9).map(|_| random.below(bits.len() + 3) as u64).collect();
    let mut out = vec![0; queries.len()];
    for one in [true, false] {
        let positions: Vec<u64> = (0..bits.len()).filter(|at| bits[*at] == one).map(|at| at as u64).collect();
        let rank_at = |at: usize| positions.partition_point(|it| *it < at as u64) as u64;
        let ranks: Vec<u64> = (0..=bits.len()).map(rank_at).collect();
        for (selects, of) in [(false, ranks), (true, positions)] {
            let missing = match (selects, one) {
                (false, true) => all.rank_list(&queries, &mut out),
                (false, false) => all.rank0_list(&queries, &mut out),
                (true, true) => all.select_list(&queries, &mut out),
                (true, false) => all.select0_list(&queries, &mut out),
            };
            let wanted: Vec<u64> = queries.iter().map(|it| of.get(*it as usize).copied().unwrap_or(u64::MAX)).collect();
            assert_eq!(out, wanted);
            assert_eq!(missing, Ok(wanted.iter().filter(|it| **it == u64::MAX).count()));
        }
    }
    let why = all.rank_list(&queries, &mut out[1..]);
    assert_eq!(why, Err(ListError::Lengths { queries: queries.len(), room: queries.len() - 1 }));
}

#[test]
fn counts_that_do_not_fit_are_refused() {
    assert_eq!(PrefixCounts::new(&[1, 2], &[1]), Err(BuildError::Pairs { first: 2, second: 1 }));
    assert_eq!(PrefixCounts::new(&[], &[1]), Err(BuildError::Pairs { first: 0, second: 1 }));
    assert_eq!(PrefixCounts::new(&[u64::MAX, 1], &[0, 0]), Err(BuildError::TooManyBits));
    assert!(PrefixCounts::new(&[u64::MAX, 0], &[0, 0]).is_ok());
    assert!(PrefixCounts::new(&[], &[]).is_ok_and(|it| it.find(0).is_none()));
}

#[test]
fn more_1_bits_than_bits_are_refused_in_any_shard() {
    assert_eq!(PrefixCounts::new(&[1, 2], &[9, 9]), Err(BuildError::MoreOnes { shard: 0 }));
    assert_eq!(PrefixCounts::new(&[10, 10], &[20, 0]), Err(BuildError::MoreOnes { shard: 0 })); // not more in all
    assert_eq!(PrefixCounts::new(&[10, 0, 10], &[10, 1, 0]), Err(BuildError::MoreOnes { shard: 1 }));
    assert_eq!(PrefixCounts::new(&[10, 10], &[10, 11]), Err(BuildError::MoreOnes { shard: 1 }));
    let full = PrefixCounts::new(&[10, 10], &[10, 10]).unwrap();
    assert_eq!((full.find_one(19), full.find_zero(0)), (Some(Location { shard: 1, within: 9 }), None));
}

#[test]
fn wrong_tables_are_an_error_or_inside() {
    let (words, upper, lower) = ([u64::MAX; 4], [7], [u64::MAX]);
    let view = IndexView::new(&words, 256, &upper, &lower).unwrap();
    match ShardedIndex::new(&[view, view]) {
        Err(why) => assert_eq!(why, BuildError::WrongTables),
        Ok(all) => {
            for number in [0, 1, 255, 256, 300, 512, 513] {
                assert!(all.rank(number).map_or(true, |it| it.map_or(number > 512, |rank| rank <= number)));
                assert!(all.select(number).ok().flatten().iter().all(|position| *position < 512));
            }
        }
    }
}
