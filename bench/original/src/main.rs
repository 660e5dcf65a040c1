//! Times rank and selection of the original crate: `bench-original LOG2 ROUNDS`. Words, queries, clock and rows are those of
//! `crates/tool_bench`, so the last column (the sum of the answers) is the same too.
use bitm::{
    ArrayWithRankSimple, BinaryRankSearch, CombinedSampling, Rank, RankSelect101111, Select,
    Select0, Select0ForRank101111, SelectForRank101111,
};
use std::hint::black_box;

/// Queries of a row.
const QUERIES: usize = 1 << 17;

/// The next number of a sequence that looks random.
fn draw(state: &mut u64) -> u64 {
    let mut n = *state;
    n ^= n.wrapping_mul(1 << 13);
    n ^= n >> 7;
    n ^= n.wrapping_mul(1 << 17);
    *state = n;
    n.wrapping_mul(0x2545_F491_4F6C_DD1D)
}

/// So many words of random bits; three numbers are drawn for each.
fn content(len: usize) -> Box<[u64]> {
    let mut state = 88_172_645_463_325_252;
    (0..len).map(|_| [draw(&mut state), draw(&mut state), draw(&mut state)][0]).collect()
}

/// Queries below a limit.
fn queries(limit: usize) -> Vec<usize> {
    let mut state = 2_463_534_242_088_117;
    (0..QUERIES).map(|_| (draw(&mut state) % limit.max(1) as u64) as usize).collect()
}

#[repr(C)]
struct Timespec {
    seconds: i64,
    nanos: i64,
}

extern "C" {
    fn clock_gettime(clock: i32, at: *mut Timespec) -> i32;
}

/// The nanoseconds of the processor that the thread has used (CLOCK_THREAD_CPUTIME_ID of Linux).
fn used() -> u64 {
    let mut at = Timespec { seconds: 0, nanos: 0 };
    assert_eq!(unsafe { clock_gettime(3, &mut at) }, 0);
    at.seconds as u64 * 1_000_000_000 + at.nanos as u64
}

fn print(row: &str, by: &str, log2: u32, nanos: u64, calls: usize, check: usize) {
    println!("{row},{by},{log2},even,{:.2},ns,{check}", nanos as f64 / calls as f64);
}

/// The least time of the rounds for all queries, and the sum of the answers.
#[inline(always)]
fn row(name: &str, by: &str, log2: u32, rounds: u32, asked: &[usize], ask: impl Fn(usize) -> Option<usize>) {
    let (mut least, mut check) = (u64::MAX, 0usize);
    for _ in 0..rounds {
        let start = used();
        check = 0;
        for &query in asked {
            check = check.wrapping_add(ask(query).unwrap_or(0));
        }
        least = least.min(used() - start);
    }
    print(name, by, log2, least, asked.len(), check);
}

/// The same where each call waits for the answer before; `zero` is 0, which the compiler does not know.
#[inline(always)]
fn chained(name: &str, by: &str, log2: u32, rounds: u32, asked: &[usize], ask: impl Fn(usize) -> Option<usize>) {
    let (zero, mut least, mut last) = (black_box(0usize), u64::MAX, 0usize);
    for _ in 0..rounds {
        let start = used();
        last = 0;
        for &query in asked {
            last = ask(query ^ (last & zero)).unwrap_or(last);
        }
        least = least.min(used() - start);
    }
    print(name, by, log2, least, asked.len(), last);
}

/// The rows of an index by these strategies.
fn index<S: SelectForRank101111, S0: Select0ForRank101111>(by: &str, log2: u32, rounds: u32, words: &[u64]) {
    let start = used();
    let (index, ones) = RankSelect101111::<S, S0, _>::build(words);
    print("build_a_word", by, log2, used() - start, words.len(), ones);
    let (positions, of_ones) = (queries(64 * words.len()), queries(ones));
    let of_zeros = queries(64 * words.len() - ones);
    row("rank", by, log2, rounds, &positions, |i| index.try_rank(i));
    chained("rank_chained", by, log2, rounds, &positions, |i| index.try_rank(i));
    row("select", by, log2, rounds, &of_ones, |r| index.try_select(r));
    chained("select_chained", by, log2, rounds, &of_ones, |r| index.try_select(r));
    row("select0", by, log2, rounds, &of_zeros, |r| index.try_select0(r));
    chained("select0_chained", by, log2, rounds, &of_zeros, |r| index.try_select0(r));
}

fn main() {
    let numbers: Vec<u32> = std::env::args().skip(1).filter_map(|it| it.parse().ok()).collect();
    let [log2 @ 10..=33, rounds] = numbers[..] else {
        eprintln!("usage: bench-original LOG2 ROUNDS");
        std::process::exit(2);
    };
    let words = content(1 << log2 >> 6);
    let start = used();
    let (simple, ones) = ArrayWithRankSimple::build(words.clone());
    print("build_a_word", "original simple", log2, used() - start, words.len(), ones as usize);
    let positions = queries(64 * words.len());
    row("rank", "original simple", log2, rounds, &positions, |i| simple.try_rank(i));
    index::<BinaryRankSearch, BinaryRankSearch>("original binary", log2, rounds, &words);
    index::<CombinedSampling, CombinedSampling>("original sampled", log2, rounds, &words);
}
