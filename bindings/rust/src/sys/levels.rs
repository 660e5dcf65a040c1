//! The levels of minimal perfect hashes, without seeds and with them: built by one call, or level by level.
use crate::errors::{BuildError, EqualPair, NoMemory};
use crate::ffi::hashes::*;
use crate::sys::memory::zeroed;
use crate::sys::OK;
use alloc::vec::Vec;

/// What is called after each step of a build: with how many steps are done, or how many keys have a number, and with
/// how many there are; at last with all of them.
pub(crate) type Progress<'p> = Option<&'p mut dyn FnMut(usize, usize)>;

/// Levels, memory to build them in, and how many hashes have no number.
pub(crate) struct Levels {
    pub(crate) words: Vec<u64>,
    /// One for each word where seeds are tried, else none.
    pub(crate) seeds: Vec<u8>,
    pub(crate) sizes: Vec<u64>,
    again: Vec<u64>,
    sorted: Vec<u64>,
    percent: u32,
    tries: Option<u16>,
    levels: u64,
    used: u64,
    left: u64,
}

/// No hash has more levels.
const LEVELS: usize = 256;

impl Levels {
    /// The words of all levels of n hashes have about n * g * e^(1/g) bits, with g = `percent` / 100, and there is at
    /// least one word for each level.
    fn with_room(keys: usize, percent: u32, tries: Option<u16>) -> Result<Self, NoMemory> {
        let percent_of_all = (percent.max(50) as usize + 200).max(400);
        let bits = (keys as u128 * percent_of_all as u128).div_ceil(90);
        let words = zeroed((bits / 64) as usize + 2 * LEVELS)?;
        // SAFETY: numbers are passed.
        let again = zeroed(unsafe { bitm_hash_level_len(keys, percent) })?;
        let (of_seeds, of_sorted) = tries.map_or((0, 0), |_| (words.len(), keys));
        let (seeds, sorted, sizes) = (zeroed(of_seeds)?, zeroed(of_sorted)?, zeroed(LEVELS)?);
        Ok(Levels { words, seeds, sizes, again, sorted, percent, tries, levels: 0, used: 0, left: 0 })
    }

    /// The levels of the hashes, which are put into another order; with the best of that many seeds for each word, or
    /// without seeds. Where hashes are equal, the list then begins with the hashes that have no number, sorted.
    pub(crate) fn of(
        hashes: &mut [u64],
        percent: u32,
        tries: Option<u16>,
        progress: Progress<'_>,
    ) -> Result<Self, BuildError> {
        let mut all = Levels::with_room(hashes.len(), percent, tries)?;
        let status = match (progress, tries) {
            (Some(progress), _) => all.level_by_level(hashes, progress),
            (None, None) => all.at_once(hashes),
            (None, Some(tries)) => all.at_once_with_seeds(hashes, tries),
        };
        if status == OK && all.left > 0 {
            return Err(equal(hashes, all.left as usize));
        }
        all.words.truncate(all.used as usize);
        all.seeds.truncate(all.used as usize);
        all.sizes.truncate(all.levels as usize);
        if status == OK {
            Ok(all)
        } else {
            Err(BuildError::TooLong { len: hashes.len() })
        }
    }

    fn at_once(&mut self, hashes: &mut [u64]) -> u32 {
        // SAFETY: four mutable slices that do not overlap, and room for three numbers.
        unsafe {
            bitm_hash_build(
                hashes.as_mut_ptr(),
                hashes.len(),
                self.percent,
                self.words.as_mut_ptr(),
                self.words.len(),
                self.again.as_mut_ptr(),
                self.again.len(),
                self.sizes.as_mut_ptr(),
                self.sizes.len(),
                &mut self.levels,
                &mut self.used,
                &mut self.left,
            )
        }
    }

    fn at_once_with_seeds(&mut self, hashes: &mut [u64], tries: u16) -> u32 {
        // SAFETY: six mutable slices that do not overlap, and room for three numbers.
        unsafe {
            bitm_hash_build_seeded(
                hashes.as_mut_ptr(),
                hashes.len(),
                self.percent,
                tries,
                self.words.as_mut_ptr(),
                self.words.len(),
                self.seeds.as_mut_ptr(),
                self.seeds.len(),
                self.again.as_mut_ptr(),
                self.again.len(),
                self.sorted.as_mut_ptr(),
                self.sorted.len(),
                self.sizes.as_mut_ptr(),
                self.sizes.len(),
                &mut self.levels,
                &mut self.used,
                &mut self.left,
            )
        }
    }

    /// What the calls for all levels do, with a call of `progress` after each level; of no keys with one.
    fn level_by_level(&mut self, hashes: &mut [u64], progress: &mut dyn FnMut(usize, usize)) -> u32 {
        let keys = hashes.len();
        self.left = keys as u64;
        if keys == 0 {
            progress(0, 0);
        }
        while self.left > 0 && self.levels < LEVELS as u64 {
            // SAFETY: numbers are passed.
            let len = unsafe { bitm_hash_level_len(self.left as usize, self.percent) };
            if len > self.words.len() - self.used as usize {
                break;
            }
            let status = self.level(&mut hashes[..self.left as usize], len);
            if status != OK {
                return status;
            }
            self.sizes[self.levels as usize] = len as u64;
            self.levels += 1;
            self.used += len as u64;
            progress(keys - self.left as usize, keys);
        }
        OK
    }

    /// Writes the words of the next level, and their seeds.
    fn level(&mut self, hashes: &mut [u64], len: usize) -> u32 {
        let (from, count, level, used) = (hashes.as_mut_ptr(), hashes.len(), self.levels as u32, self.used as usize);
        let (ones, again) = (self.words[used..][..len].as_mut_ptr(), self.again[..len].as_mut_ptr());
        let Some(tries) = self.tries else {
            // SAFETY: three mutable slices that do not overlap, and room for a number.
            return unsafe { bitm_hash_level(from, count, level, ones, len, again, len, &mut self.left) };
        };
        let (seeds, sorted, room) =
            (self.seeds[used..][..len].as_mut_ptr(), self.sorted.as_mut_ptr(), self.sorted.len());
        let left = &mut self.left;
        // SAFETY: five mutable slices that do not overlap, and room for a number.
        unsafe {
            bitm_hash_level_seeded(from, count, level, tries, ones, len, seeds, len, again, len, sorted, room, left)
        }
    }

    /// The block of the hash with these levels.
    pub(crate) fn block(&self, seed: u64) -> Result<Vec<u64>, BuildError> {
        let (words, len, sizes, levels) =
            (self.words.as_ptr(), self.words.len(), self.sizes.as_ptr(), self.sizes.len());
        let (seeds, is_seeded, mut size) = (self.seeds.as_ptr(), self.tries.is_some(), 0);
        let size_of = if is_seeded { bitm_hash_block_size_seeded } else { bitm_hash_block_size };
        // SAFETY: numbers are passed, and room for one.
        let sized = unsafe { size_of(len, levels, &mut size) };
        let mut block = zeroed::<u64>(if sized == OK { size as usize } else { 0 })?;
        let (to, room) = (block.as_mut_ptr(), block.len());
        // SAFETY: shared slices, of as many seeds as there are words, and a mutable one, which overlaps none of them.
        let status = unsafe {
            match is_seeded {
                true => bitm_hash_block_build_seeded(words, len, seeds, len, sizes, levels, seed, to, room),
                false => bitm_hash_block_build(words, len, sizes, levels, seed, to, room),
            }
        };
        if status == OK {
            Ok(block)
        } else {
            Err(BuildError::TooLong { len })
        }
    }
}

/// Why the first `left` hashes have no number. They are sorted.
fn equal(hashes: &mut [u64], left: usize) -> BuildError {
    hashes[..left].sort_unstable();
    match hashes[..left].windows(2).find(|it| it[0] == it[1]) {
        Some(two) => BuildError::EqualHashes { left, pair: EqualPair::Hashes { hash: two[0] } },
        None => BuildError::TooLong { len: hashes.len() }, // there was no room for more levels
    }
}

/// Names two keys whose hashes are equal: the first such key, and the next one with its hash. The first hashes of
/// `moved` are those that have no number, as `Levels::of` leaves them; `hashes` has the hash of each key, in their order.
pub(crate) fn named(
    why: BuildError,
    moved: &[u64],
    hashes: impl Iterator<Item = u64> + Clone,
    pair: impl FnOnce(usize, usize) -> EqualPair,
) -> BuildError {
    let BuildError::EqualHashes { left, .. } = why else { return why };
    let is_twice = |hash: u64| {
        let at = moved[..left].partition_point(|it| *it < hash);
        moved[at..left].starts_with(&[hash, hash])
    };
    let Some((first, hash)) = hashes.clone().enumerate().find(|(_, it)| is_twice(*it)) else { return why };
    let second = hashes.enumerate().skip(first + 1).find(|(_, it)| *it == hash);
    second.map_or(why, |(second, _)| BuildError::EqualHashes { left, pair: pair(first, second) })
}
