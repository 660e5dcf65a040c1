//! Sparse bits beside plain lists of positions; positions that are refused, lists of queries, owners, blocks that are
//! spoilt or cut.
mod common;
use bitm_proved::{
    bytes_of, BuildError, Kind, ListError, SparseBits, SparseBitsView, StoredError, Tree, TreeView, WrongTables,
    NO_ANSWER,
};
use common::{any_owner, other_kind, with_any_words, with_one_bit_changed, Random};
use std::panic::{RefUnwindSafe, UnwindSafe};
use std::sync::Arc;

/// The positions of the 1 bits of the given number of bits.
#[derive(Clone)]
struct Plain {
    positions: Vec<u64>,
    len: usize,
}

impl Plain {
    fn drawn(count: usize, most: usize, more: usize, random: &mut Random) -> Self {
        let mut next = random.below(most);
        let mut positions = Vec::new();
        for _ in 0..count {
            positions.push(next as u64);
            next += 1 + random.below(most);
        }
        let len = positions.last().map_or(0, |it| *it as usize + 1) + more;
        Plain { positions, len }
    }

    fn get(&self, at: usize) -> bool {
        self.positions.binary_search(&(at as u64)).is_ok()
    }

    fn rank(&self, one: bool, at: usize) -> usize {
        let ones = self.positions.partition_point(|it| *it < at as u64);
        if one {
            ones
        } else {
            at - ones
        }
    }

    fn select(&self, one: bool, rank: usize) -> Option<usize> {
        if one {
            return self.positions.get(rank).map(|it| *it as usize);
        }
        let step = |at, it: &u64| if *it <= at as u64 { at + 1 } else { at };
        (rank < self.len - self.positions.len()).then(|| self.positions.iter().fold(rank, step))
    }

    /// By steps of one position.
    fn next(&self, one: bool, from: usize) -> Option<usize> {
        match one {
            true => self.positions.iter().map(|it| *it as usize).find(|it| *it >= from),
            false => (from..self.len).find(|it| !self.get(*it)),
        }
    }

    fn previous(&self, one: bool, from: usize) -> Option<usize> {
        let end = from.saturating_add(1).min(self.len);
        match one {
            true => self.positions.iter().map(|it| *it as usize).rev().find(|it| *it < end),
            false => (0..end).rev().find(|it| !self.get(*it)),
        }
    }
}

fn of_one(bits: &SparseBitsView<'_>, plain: &Plain, at: usize) {
    assert_eq!(bits.get(at), (at < plain.len).then(|| plain.get(at)));
    assert_eq!(bits.rank(at), (at <= plain.len).then(|| plain.rank(true, at)));
    assert_eq!(bits.rank0(at), (at <= plain.len).then(|| plain.rank(false, at)));
    assert_eq!((bits.select(at), bits.select0(at)), (plain.select(true, at), plain.select(false, at)));
    assert_eq!((bits.next_one(at), bits.next_zero(at)), (plain.next(true, at), plain.next(false, at)));
    assert_eq!((bits.previous_one(at), bits.previous_zero(at)), (plain.previous(true, at), plain.previous(false, at)));
}

fn asked_of(plain: &Plain, random: &mut Random) -> Vec<usize> {
    let (len, ones) = (plain.len, plain.positions.len());
    let mut asked = vec![0, 1, 2, ones, ones + 1, len, len + 1, len - ones, usize::MAX, usize::MAX - 1];
    for _ in 0..12.min(ones) {
        let at = plain.positions[random.below(ones)] as usize;
        asked.extend([at.saturating_sub(1), at, at + 1]);
    }
    asked.extend((0..12).map(|_| random.below(len + 1)));
    asked
}

fn as_plain(bits: &SparseBitsView<'_>, plain: &Plain, random: &mut Random) {
    let ones = plain.positions.len();
    assert_eq!((bits.len(), bits.is_empty(), bits.check()), (plain.len, plain.len == 0, true));
    assert_eq!((bits.count_ones(), bits.count_zeros()), (ones, plain.len - ones));
    assert!(bits.positions().iter().eq(plain.positions.iter().copied()));
    for at in asked_of(plain, random) {
        of_one(bits, plain, at);
    }
}

type List = fn(&SparseBits, &[usize], &mut [usize]) -> Result<usize, ListError>;
type Single = fn(&SparseBits, usize) -> Option<usize>;

fn lists(bits: &SparseBits, plain: &Plain, random: &mut Random) {
    let asked = asked_of(plain, random);
    let pairs: [(List, Single); 5] = [
        (|it, of, out| it.get_list(of, out), |it, at| it.get(at).map(usize::from)),
        (|it, of, out| it.rank_list(of, out), |it, at| it.rank(at)),
        (|it, of, out| it.rank0_list(of, out), |it, at| it.rank0(at)),
        (|it, of, out| it.select_list(of, out), |it, at| it.select(at)),
        (|it, of, out| it.select0_list(of, out), |it, at| it.select0(at)),
    ];
    for (list, single) in pairs {
        let mut out = vec![9; asked.len()];
        let wanted: Vec<usize> = asked.iter().map(|at| single(bits, *at).unwrap_or(NO_ANSWER)).collect();
        let missing = wanted.iter().filter(|it| **it == NO_ANSWER).count();
        assert_eq!((list(bits, &asked, &mut out), &out), (Ok(missing), &wanted));
        let short = ListError::Lengths { queries: asked.len(), room: asked.len() - 1 };
        assert_eq!(list(bits, &asked, &mut out[1..]), Err(short));
        assert_eq!(list(bits, &[], &mut []), Ok(0));
    }
}

#[test]
fn answers_are_those_of_plain_lists() {
    let mut random = Random(51);
    let of = |positions: &[u64], len| Plain { positions: positions.to_vec(), len };
    let mut all = vec![of(&[], 0), of(&[], 9), of(&[0], 1), of(&[3, 100, 101, 4000], 5000)];
    all.extend((1..20).map(|it| Plain::drawn(it * it, 1 << it, it % 3 * 70, &mut random)));
    all.push(Plain::drawn(2000, 5, 0, &mut random));
    for plain in all {
        let bits = SparseBits::build(&plain.positions, plain.len).expect("any");
        as_plain(bits.view(), &plain, &mut random);
        as_plain(bits.clone().view(), &plain, &mut random);
        lists(&bits, &plain, &mut random);
    }
}

#[test]
fn positions_that_are_refused() {
    let build = |positions: &[u64], len| SparseBits::build(positions, len).err();
    assert_eq!(build(&[1, 5, 5, 9], 100), Some(BuildError::NotRising { index: 2, position: 5, before: 5 }));
    assert_eq!(build(&[5, 1], 100), Some(BuildError::NotRising { index: 1, position: 1, before: 5 }));
    for (positions, len, index) in [(&[1, 5, 9][..], 5, 1), (&[u64::MAX], usize::MAX, 0), (&[0], 0, 0)] {
        let position = positions[index];
        assert_eq!(build(positions, len), Some(BuildError::PastEnd { index, position, len }));
    }
    let texts = [build(&[1, 2, 17, 17], 100), build(&[1, 2, 17, 200], 100)].map(|it| it.unwrap().to_string());
    assert_eq!(texts, ["position 3 (17) is not above position 2 (17)", "position 3 (200) is not below 100"]);
}

#[test]
fn lists_of_as_many_bits_as_there_can_be() {
    let most = SparseBits::build(&[5], usize::MAX).expect("any");
    assert_eq!((most.rank0(usize::MAX), most.select0(usize::MAX - 2)), (Some(usize::MAX - 1), Some(usize::MAX - 1)));
    assert_eq!(most.rank_list(&[7], &mut [9]), Err(ListError::WrongTables { wrong: 1 })); // an answer could be a code
    let fewer = SparseBits::build(&[5], usize::MAX - 2).expect("any");
    assert_eq!(fewer.rank_list(&[7], &mut [9]), Ok(0));
}

#[test]
fn any_owner_has_bits_in_its_words_or_bytes() {
    let plain = Plain::drawn(300, 90, 7, &mut Random(52));
    let file = SparseBits::build(&plain.positions, plain.len).expect("any").into_owner();
    let look = |bits: &SparseBitsView<'_>| as_plain(bits, &plain, &mut Random(53));
    any_owner!(SparseBits, SparseBitsView, file, &format!("SparseBits {{ bits: {}, ones: 300 }}", plain.len), look);
}

#[test]
fn bits_are_send_sync_and_unwind_safe() {
    fn all<T: Send + Sync + UnwindSafe + RefUnwindSafe>() {}
    all::<(SparseBits, SparseBits<Arc<[u64]>>, SparseBits<&[u8]>, SparseBitsView<'_>)>();
    let plain = Plain::drawn(2000, 9, 0, &mut Random(54));
    let bits = SparseBits::build(&plain.positions, plain.len).expect("any");
    std::thread::scope(|threads| {
        for _ in 0..4 {
            threads.spawn(|| (0..2000).for_each(|i| assert_eq!(bits.select(i), plain.select(true, i))));
        }
    });
}

/// Answers of a block that may hold anything: inside, or an error.
fn inside(bits: &SparseBitsView<'_>) {
    let len = bits.len();
    let is = |found: Result<Option<usize>, WrongTables>, low: usize, high: usize| {
        assert!(found.map_or(true, |it| it.is_none_or(|it| low <= it && it < high)));
    };
    for at in (0..=len).step_by(1 + len / 40) {
        assert!(bits.checked_get(at).map_or(true, |it| it.is_some() == (at < len)));
        is(bits.checked_rank(at), 0, at + 1);
        is(bits.checked_rank0(at), 0, at + 1);
        is(bits.checked_select(at), 0, len);
        is(bits.checked_select0(at), 0, len);
        is(bits.checked_next_one(at), at, len);
        is(bits.checked_next_zero(at), at, len);
        is(bits.checked_previous_one(at), 0, at + 1);
        is(bits.checked_previous_zero(at), 0, at + 1);
    }
}

#[test]
fn each_changed_word_is_seen_and_never_leads_outside() {
    let mut random = Random(55);
    let plain = Plain::drawn(60, 70, 3, &mut random);
    let good = SparseBits::build(&plain.positions, plain.len).expect("any").into_owner();
    with_one_bit_changed(&good, 3, |block, in_header| match SparseBitsView::from_words(block) {
        Err(why) => assert_eq!((why, in_header), (StoredError::NotWhole, true)),
        Ok(bits) => {
            assert!(!in_header && !bits.check());
            inside(&bits);
        }
    });
    with_any_words(&good, &mut random, |block, _| {
        inside(&SparseBitsView::from_words(block).expect("the header is right"));
    });
}

#[test]
fn files_that_are_cut_or_of_another_kind_are_refused() {
    let good = SparseBits::build(&[3, 100, 101, 4000], 5000).expect("any").into_owner();
    for end in 0..good.len() {
        assert_eq!(SparseBitsView::from_words(&good[..end]).err(), Some(StoredError::NotWhole));
    }
    assert_eq!(SparseBits::from_bytes(&bytes_of(&good)[1..]).err(), Some(StoredError::Misaligned));
    assert_eq!(TreeView::from_words(&good).err(), other_kind(Kind::SparseBits, Kind::Tree));
    let tree = Tree::build(&[1, 0]).expect("a tree").into_owner();
    assert_eq!(SparseBits::from_words(tree).err(), other_kind(Kind::Tree, Kind::SparseBits));
}
