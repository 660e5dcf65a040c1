//! How the block of a perfect hash of keys is made.
use super::{hash_in, key_hash, ROLE};
use crate::errors::{BuildError, EqualPair, NoMemory, StoredError};
use crate::ffi::hashes::bitm_hash_set_prints_seeded;
use crate::keys::{Key, KeyOptions};
use crate::sys::levels::{named, Levels, Progress};
use crate::sys::memory::{copied, with_room, zeroed};
use crate::sys::{sections, OK};
use alloc::vec::Vec;

/// The seeds that are tried, the first and the last, where none is given.
const SEEDS: (u64, u64) = (1, 4);

/// The block of the hash of keys, by the first seed that gives no two different keys one hash.
pub(super) fn build<'k>(
    keys: impl IntoIterator<Item: Into<Key<'k>>> + Clone,
    how: KeyOptions,
    mut progress: Progress<'_>,
) -> Result<Vec<u64>, BuildError> {
    if how.bits > 32 {
        return Err(BuildError::WrongBits { bits: how.bits });
    }
    let keys = || keys.clone().into_iter().map(Into::into);
    let (mut seed, last) = how.seed.map_or(SEEDS, |it| (it, it));
    loop {
        let again = progress.as_mut().map(|it| it as &mut dyn FnMut(usize, usize));
        match by_seed(keys, how, seed, again) {
            Err(BuildError::EqualHashes { pair: EqualPair::OneHash { .. }, .. }) if seed < last => seed += 1,
            made => return made,
        }
    }
}

/// The block by a seed.
fn by_seed<'k, I: Iterator<Item = Key<'k>>>(
    keys: impl Fn() -> I,
    how: KeyOptions,
    seed: u64,
    progress: Progress<'_>,
) -> Result<Vec<u64>, BuildError> {
    let (hashes, prints) = hashed(keys(), seed)?;
    let mut moved = copied(&hashes)?;
    let levels = Levels::of(&mut moved, how.percent, how.tries, progress).map_err(|why| {
        named(why, &moved, hashes.iter().copied(), |first, second| match keys().nth(first) == keys().nth(second) {
            true => EqualPair::Keys { first, second },
            false => EqualPair::OneHash { first, second },
        })
    })?;
    let block = levels.block(seed)?;
    drop((moved, levels));
    with_prints(&block, &hashes, &prints, how.bits)
}

/// The hashes of keys, and what their fingerprints are of.
fn hashed<'k>(keys: impl Iterator<Item = Key<'k>>, seed: u64) -> Result<(Vec<u64>, Vec<u64>), NoMemory> {
    let least = keys.size_hint().0;
    let (mut hashes, mut prints) = (with_room(least)?, with_room(least)?);
    for key in keys {
        let (hash, print) = key_hash(key, seed);
        for (all, one) in [(&mut hashes, hash), (&mut prints, print)] {
            all.try_reserve(1).map_err(|_| NoMemory { bytes: 16 * all.len() })?;
            all.push(one);
        }
    }
    Ok((hashes, prints))
}

/// The block with the section of fingerprints.
fn with_prints(block: &[u64], hashes: &[u64], prints: &[u64], width: u32) -> Result<Vec<u64>, BuildError> {
    let too_long = BuildError::TooLong { len: hashes.len() };
    let hash = hash_in(block).ok_or(too_long)?;
    let mut words = zeroed::<u64>(1 + (hashes.len() * width as usize).div_ceil(64))?;
    words[0] = width.into();
    let ((of, own, len), (to, room)) =
        ((hashes.as_ptr(), prints.as_ptr(), hashes.len()), (words[1..].as_mut_ptr(), words.len() - 1));
    // SAFETY: a hash in the borrowed block, and slices, the mutable one apart from the others.
    match unsafe { bitm_hash_set_prints_seeded(&hash, of, len, own, len, to, room, width) } {
        OK => sections::extended(block, ROLE, 8 * words.len(), &words).map_err(|why| match why {
            StoredError::NoMemory(why) => BuildError::NoMemory(why),
            _ => too_long,
        }),
        _ => Err(too_long),
    }
}
