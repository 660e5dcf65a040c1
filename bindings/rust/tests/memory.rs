//! Under a limit of memory each build returns an error, and none ends the program. The limit holds for the whole process,
//! so a test runs this program once more under `ulimit -v`.
#![cfg(target_os = "linux")]
use bitm_proved::{
    BitVec, BuildError, CombinedSampling, EliasFano, Index, NoMemory, PerfectHash, Queries, RankSelect101111,
    RankSimple, Sampling, SeededHash, StoredError, Tree, WaveletMatrix,
};
use std::process::Command;

#[test]
fn a_limit_of_memory_is_an_error_and_no_abort() {
    let own = std::env::current_exe().expect("this program");
    let script = "ulimit -v 700000; exec \"$0\" --ignored --exact --nocapture --test-threads=1 under_a_limit";
    let done = Command::new("bash").args(["-c", script]).arg(own).output().expect("bash");
    let text = String::from_utf8_lossy(&done.stdout);
    assert!(done.status.success() && text.contains("1 passed"), "{text}{}", String::from_utf8_lossy(&done.stderr));
}

/// Whether the mapping of an address requests huge pages, as the system tells it.
#[cfg(feature = "std")]
fn requests_huge_pages(address: usize) -> bool {
    let text = std::fs::read_to_string("/proc/self/smaps").expect("Linux");
    let is_inside = |line: &str| {
        let bounds = line.split(' ').next().and_then(|it| it.split_once('-'))?;
        let begin = usize::from_str_radix(bounds.0, 16).ok()?;
        Some((begin..usize::from_str_radix(bounds.1, 16).ok()?).contains(&address))
    };
    let mut inside = false;
    for line in text.lines() {
        inside = is_inside(line).unwrap_or(inside);
        if let Some(flags) = line.strip_prefix("VmFlags:").filter(|_| inside) {
            return flags.split(' ').any(|it| it == "hg");
        }
    }
    panic!("no mapping has the address {address:#x}");
}

#[cfg(feature = "std")] // without it the crate makes no call of the system
#[test]
fn huge_pages_are_requested_for_many_words() {
    if !std::path::Path::new("/sys/kernel/mm/transparent_hugepage").exists() {
        return eprintln!("skipped: this system has no huge pages");
    }
    let (large, small) = (Box::<[u64]>::with_zeroed_bits(1 << 26), Box::<[u64]>::with_zeroed_bits(1 << 24));
    assert!(requests_huge_pages(large.as_ptr() as usize + (4 << 20)));
    assert!(!requests_huge_pages(small.as_ptr() as usize + (1 << 20)));
}

/// All memory that is left but for some pieces of 64 KiB.
fn fill(some: &mut Vec<Box<[u64]>>) {
    let mut len = 1 << 26;
    while len > 1 << 13 && some.len() < some.capacity() {
        match Box::<[u64]>::try_with_zeroed_bits(64 * len) {
            Ok(more) => some.push(more),
            Err(_) => len /= 2,
        }
    }
}

fn refused<T>(what: &str, result: Result<T, BuildError>) {
    assert!(matches!(result, Err(BuildError::NoMemory(_))), "{what}");
}

#[test]
#[ignore = "run by the other test, under a limit"]
fn under_a_limit() {
    let bits = 1usize << 40;
    assert_eq!(Box::<[u64]>::try_with_zeroed_bits(bits).err(), Some(NoMemory { bytes: bits / 8 }));
    assert_eq!(Box::<[u64]>::try_with_filled_bits(bits).err(), Some(NoMemory { bytes: bits / 8 }));
    assert_eq!(Box::<[u64]>::try_with_bitwords(1, 16, bits / 16).err(), Some(NoMemory { bytes: bits / 8 }));
    let words = Box::<[u64]>::try_with_64bit_segments(3, 1 << 24).expect("128 MiB");
    let hashes = || (0..1_000_000).map(|i: u64| i.wrapping_mul(0x9E37_79B9_7F4A_7C15)).collect::<Vec<_>>();
    let (kept, seeded, index) = (hashes(), hashes(), Index::build(&words[..1 << 20]));
    let mut rest = Vec::with_capacity(1 << 12);
    fill(&mut rest);
    refused("Index", Index::try_build(&words, 64 * words.len(), Sampling::default()));
    refused("RankSelect101111", RankSelect101111::<CombinedSampling, CombinedSampling, _>::try_build(&words[..]));
    refused("RankSimple", RankSimple::try_build(&words[..]));
    refused("EliasFano", EliasFano::build(&words));
    refused("Tree", Tree::build(&words));
    refused("WaveletMatrix", WaveletMatrix::build(&words));
    refused("SeededHash", SeededHash::build(seeded)); // the last two: they give back the memory of their keys
    fill(&mut rest);
    refused("PerfectHash", PerfectHash::build(kept));
    assert!(matches!(index.to_stored(64 << 20), Err(StoredError::NoMemory(_))));
    rest.clear();
    assert_eq!(PerfectHash::build(hashes()).map(|it| it.len()).ok(), Some(1_000_000));
    assert!(EliasFano::build(&words).is_ok_and(|it| it.len() == 1 << 24));
    let node = Some((words.len() - 1) / 3); // there are no more than these three children of each node before
    assert_eq!(Tree::build(&words).err(), Some(BuildError::NotATree { node }));
}
