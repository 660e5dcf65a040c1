//! Makes a given number of queries of one kind over 2^16 random bits: `./instructions` counts the instructions of each.
//! Rows "in plain Rust" are what the original is documented to do with a bit, by the operators of `u64` on a slice.
use bitm_proved::{
    words, ArrayWithRank101111, BitAccess, CombinedSampling, EliasFano, Index, PerfectHash, Queries, Rank,
    RankSelect101111, Select,
};
use std::{env, hint::black_box};

const BITS: usize = 1 << 16;

fn random(seed: &mut u64) -> usize {
    *seed ^= *seed << 13;
    *seed ^= *seed >> 7;
    *seed ^= *seed << 17;
    *seed as usize
}

/// Adds up what a query answers, in a loop of its own for each kind.
#[inline(never)]
fn queries(count: usize, mut query: impl FnMut(usize) -> usize) -> usize {
    let mut seed = 88172645463325252;
    (0..count).fold(0, |all: usize, _| all.wrapping_add(query(black_box(random(&mut seed)))))
}

fn main() {
    let mut seed = 1;
    let mut bits: Vec<u64> = (0..BITS / 64).map(|_| random(&mut seed) as u64).collect();
    let arguments: Vec<String> = env::args().collect();
    let (what, n) = (arguments[1].as_str(), arguments[2].parse().unwrap_or(0));
    let owned: ArrayWithRank101111 = bits.clone().into_boxed_slice().into();
    let sampled: RankSelect101111<CombinedSampling> = bits.clone().into_boxed_slice().into();
    let index = Index::build(bits.clone());
    let ones: usize = owned.count_ones();
    let items: Vec<u64> = (0..10_000).map(|i| 100 * i + i % 7).collect();
    let numbers = EliasFano::build(&items).expect("sorted");
    let hashes: Vec<u64> = (0..10_000).map(|_| random(&mut seed) as u64).collect();
    let hash = PerfectHash::build(hashes.clone()).expect("no two are equal");
    let all = match what {
        "nothing" => queries(n, |at| at % BITS),
        "nothing below the 1 bits" => queries(n, |at| at % BITS % ones),
        "words::count" => queries(n, |at| words::count(&bits, at % BITS % 64, true)),
        "RankSelect101111::rank" => queries(n, |at| owned.rank(at % BITS)),
        "Index::rank" => queries(n, |at| index.rank(at % BITS)),
        "IndexView::rank" => {
            let view = index.view();
            queries(n, |at| view.rank(at % BITS))
        }
        "RankSelect101111::select" => queries(n, |at| owned.select(at % BITS % ones)),
        "sampled select" => queries(n, |at| sampled.select(at % BITS % ones)),
        "Index::select" => queries(n, |at| index.select(at % BITS % ones)),
        "Index::next_one" => queries(n, |at| index.next_one(at % BITS).unwrap_or(0)),
        "get_bit" => queries(n, |at| usize::from(bits.get_bit(at % BITS))),
        "get_bit, in plain Rust" => queries(n, |at| (bits[at % BITS / 64] >> (at % 64) & 1) as usize),
        "words::get" => queries(n, |at| usize::from(words::get(&bits, BITS, at % BITS) == Some(true))),
        "set_bit" => queries(n, |at| {
            bits.set_bit(at % BITS);
            0
        }),
        "set_bit, in plain Rust" => queries(n, |at| {
            bits[at % BITS / 64] |= 1 << (at % 64);
            0
        }),
        "get_bits 13" => queries(n, |at| bits.get_bits(at % (BITS - 16), 13) as usize),
        "set_bits 13" => queries(n, |at| {
            bits.set_bits(at % (BITS - 16), at as u64 & 0x1FFF, 13);
            0
        }),
        "get_fragment 13" => queries(n, |at| bits.get_fragment(at % BITS / 16, 13) as usize),
        "bit_ones, an item" => bits.bit_ones().cycle().take(n).fold(0, usize::wrapping_add),
        "EliasFano::get" => queries(n, |at| numbers.get(at % 10_000).unwrap_or(0) as usize),
        "EliasFano::first_at_least" => queries(n, |at| numbers.first_at_least((at % 1_000_000) as u64).unwrap_or(0)),
        "EliasFano::iter, a number" => {
            numbers.iter().cycle().take(n).fold(0, |all: usize, it| all.wrapping_add(it as usize))
        }
        "PerfectHash::get" => queries(n, |at| hash.get(hashes[at % 10_000]).unwrap_or(0)),
        _ => panic!("there is no {what}"),
    };
    println!("{all}");
}
