//! Minimal perfect hashes of keys, which are hashed here, with their fingerprints: views of borrowed blocks.
mod make;
pub(crate) mod owned;

use crate::errors::{ListError, StoredError, WrongTables};
use crate::ffi::blocks::{bitm_block_section, bitm_section};
use crate::ffi::hashes::*;
use crate::keys::Key;
use crate::sys::block::{views, Block, Parts};
use crate::sys::lists::query_list;
use crate::sys::memory::{as_u64_mut, words_of};
use crate::sys::{OK, WRONG};
use core::mem::MaybeUninit;
use core::{fmt, ptr};

/// A perfect hash of keys in a borrowed block, whose header is right. Its other words may hold anything; `check` tests
/// it.
///
/// ```
/// use bitm_proved::{KeyHash, KeyHashView};
/// let made = KeyHash::build(&["ada", "bob", "eve"])?;
/// let keys = KeyHashView::from_words(made.block())?;
/// assert!(keys.check() && keys.len() == 3);
/// assert_eq!((keys.get("bob"), keys.get("zoe")), (made.get("bob"), None));
/// # Ok::<(), Box<dyn std::error::Error>>(())
/// ```
#[derive(Clone, Copy)]
pub struct KeyHashView<'a> {
    block: Block<'a, KeyParts>,
}

/// The hash as C takes it, the seed of the keys' hashes, and where the fingerprints are.
#[derive(Clone, Copy)]
struct KeyParts {
    hash: bitm_seeded_hash,
    seed: u64,
    prints: *const u64,
    prints_len: usize,
    width: u32,
}

/// The role of the section that has a word, the width of a fingerprint, and then the fingerprints. It says that keys
/// are hashed as `bitm_key_hash` does (`docs/FORMAT.md`).
const ROLE: u64 = u64::from_le_bytes(*b"bitmhas2");

/// Opens a block of a hash, with seeds or without: how many sections the hash has, after which its own come.
///
/// # Safety
/// The words can be read, and the parts written.
unsafe fn open_hash(block: *const u64, len: usize, parts: *mut KeyParts) -> Option<usize> {
    // SAFETY: the caller's duty; each word is eight bytes.
    unsafe {
        let (hash, seed) = (&raw mut (*parts).hash, &raw mut (*parts).seed);
        if bitm_hash_block_open_seeded_bytes(block, len, block.cast(), 8 * len, hash, seed) == OK {
            return Some(5);
        }
        ((*hash).seeds, (*hash).seeds_len) = (ptr::null(), 0);
        (bitm_hash_block_open(block, len, &raw mut (*hash).hash, seed) == OK).then_some(4)
    }
}

/// Opens a block of a hash of keys.
///
/// # Safety
/// The words can be read, and the parts written.
unsafe extern "C" fn open(block: *const u64, len: usize, parts: *mut KeyParts) -> u32 {
    let mut section = MaybeUninit::<bitm_section>::zeroed();
    // SAFETY: the caller's duty, room for a section of zeros, and where the call returns OK its words can be read.
    unsafe {
        let Some(own) = open_hash(block, len, parts) else { return WRONG };
        let status = bitm_block_section(block, len, own, section.as_mut_ptr());
        let found = section.assume_init();
        let is_own = status == OK && found.role == ROLE && found.words_len > 0;
        if !is_own || found.count != 8 * found.words_len as u64 {
            return WRONG;
        }
        ((*parts).prints, (*parts).prints_len) = (found.words.add(1), found.words_len - 1);
        take_width(&mut *parts, *found.words)
    }
}

/// The parts that a call writes, over zeros.
fn parts_by(call: impl FnOnce(*mut KeyParts) -> bool) -> Option<KeyParts> {
    let mut parts = MaybeUninit::<KeyParts>::zeroed();
    // SAFETY: zero bytes are a value, and so is what the call has written.
    call(parts.as_mut_ptr()).then(|| unsafe { parts.assume_init() })
}

/// Whether a block holds a hash of keys.
pub(crate) fn is_of_keys(block: &[u64]) -> bool {
    // SAFETY: a slice, and room for the parts.
    parts_by(|parts| unsafe { open(block.as_ptr(), block.len(), parts) == OK }).is_some()
}

/// The hash in a block, with seeds or without.
fn hash_in(block: &[u64]) -> Option<bitm_seeded_hash> {
    // SAFETY: a slice, and room for the parts.
    let parts = parts_by(|parts| unsafe { open_hash(block.as_ptr(), block.len(), parts).is_some() });
    parts.map(|it| it.hash)
}

/// Takes the width of a fingerprint, if the section has as many words as the fingerprints of all keys need then.
fn take_width(parts: &mut KeyParts, width: u64) -> u32 {
    let bits = u128::from(width) * parts.hash.hash.keys as u128;
    if width > 64 || bits.div_ceil(64) != parts.prints_len as u128 {
        return WRONG;
    }
    parts.width = width as u32;
    OK
}

/// Whether a block of a hash, with seeds or without, is as it was written.
///
/// # Safety
/// The words can be read.
unsafe extern "C" fn check(block: *const u64, len: usize) -> u32 {
    // SAFETY: the caller's duty.
    match unsafe { bitm_hash_block_check_seeded(block, len) } {
        OK => OK,
        // SAFETY: the caller's duty.
        _ => unsafe { bitm_hash_block_check(block, len) },
    }
}

views! { KeyHashView of KeyHash;
    |it: KeyParts| it.hash.hash.keys, open, check;
    "this hash", "bitm_proved::KeyHash::build(&[\"ada\", \"bob\", \"eve\"])?", "3", "keys",
    "a hash of keys: looks at all of it"
}

/// The kinds of what is hashed: of strings, which are kept, text, bytes, numbers of 64 bits with a sign, and others.
pub(crate) const STRING: u64 = 0;
const TEXT: u64 = 1;
const BYTES: u64 = 2;
const NUMBER: u64 = 3;
const LARGE_NUMBER: u64 = 4;

/// The hash of bytes of a kind, and what their fingerprint is of.
pub(crate) fn siphash(bytes: &[u8], seed: u64, kind: u64) -> (u64, u64) {
    let (mut hash, mut print) = (0, 0);
    // SAFETY: a slice, and room for two numbers. The call refuses nothing.
    let _ = unsafe { bitm_key_hash(bytes.as_ptr(), bytes.len(), seed, kind, &mut hash, &mut print) };
    (hash, print)
}

fn number_hash(number: i128, seed: u64) -> (u64, u64) {
    if let Ok(small) = i64::try_from(number) {
        return siphash(&small.to_le_bytes(), seed, NUMBER);
    }
    let bits = u128::BITS - number.unsigned_abs().leading_zeros();
    let mut bytes = [if number < 0 { u8::MAX } else { 0 }; 17];
    bytes[..16].copy_from_slice(&number.to_le_bytes());
    siphash(&bytes[..bits as usize / 8 + 1], seed, LARGE_NUMBER) // with room for its sign
}

fn key_hash(key: Key<'_>, seed: u64) -> (u64, u64) {
    match key {
        Key::Text(text) => siphash(text.as_bytes(), seed, TEXT),
        Key::Bytes(bytes) => siphash(bytes, seed, BYTES),
        Key::Number(number) => number_hash(number, seed),
    }
}

/// How many keys of a list are hashed at a time.
const SOME: usize = 128;

impl KeyHashView<'_> {
    /// The seed by which keys are hashed.
    ///
    /// ```
    /// assert_eq!(bitm_proved::KeyHash::build(&["ada", "bob"])?.view().seed(), 1);
    /// # Ok::<(), bitm_proved::BuildError>(())
    /// ```
    #[inline]
    pub fn seed(&self) -> u64 {
        self.block.parts().seed
    }

    /// How many bits the fingerprint of a key has: what is no key has a number once in 2^`bits`.
    ///
    /// ```
    /// assert_eq!(bitm_proved::KeyHash::build(&["ada", "bob"])?.view().bits(), 16);
    /// # Ok::<(), bitm_proved::BuildError>(())
    /// ```
    #[inline]
    pub fn bits(&self) -> u32 {
        self.block.parts().width
    }

    /// Whether the words of the hash have seeds.
    ///
    /// ```
    /// assert!(!bitm_proved::KeyHash::build(&["ada", "bob"])?.view().has_seeds());
    /// # Ok::<(), bitm_proved::BuildError>(())
    /// ```
    #[inline]
    pub fn has_seeds(&self) -> bool {
        self.block.parts().hash.seeds_len > 0
    }

    /// As `get`, with an error where the tables turn out to be wrong.
    ///
    /// ```
    /// let keys = bitm_proved::KeyHash::build(&["ada"])?;
    /// assert_eq!((keys.view().checked_get("ada"), keys.view().checked_get("bob")), (Ok(Some(0)), Ok(None)));
    /// # Ok::<(), bitm_proved::BuildError>(())
    /// ```
    pub fn checked_get<'k>(&self, key: impl Into<Key<'k>>) -> Result<Option<usize>, WrongTables> {
        let KeyParts { prints, prints_len, width, .. } = *self.block.parts();
        let (hash, print) = key_hash(key.into(), self.seed());
        let find = |it: *const KeyParts, out| {
            // SAFETY: a hash and fingerprints in the borrowed block, and room for a number.
            unsafe { bitm_hash_find_seeded(&raw const (*it).hash, prints, prints_len, width, hash, print, out) }
        };
        // SAFETY: the call writes the number where it returns OK.
        unsafe { self.block.find(find) }
    }

    /// The numbers of a list of keys; returns how many have none, written as `NO_ANSWER`.
    ///
    /// ```
    /// use bitm_proved::{KeyHash, NO_ANSWER};
    /// let (keys, mut out) = (KeyHash::build(&["ada"])?, [9; 2]);
    /// assert_eq!((keys.view().get_list(&["ada", "bob"], &mut out), out), (Ok(1), [0, NO_ANSWER]));
    /// # Ok::<(), bitm_proved::BuildError>(())
    /// ```
    pub fn get_list<'k, K>(&self, keys: &'k [K], out: &mut [usize]) -> Result<usize, ListError>
    where
        &'k K: Into<Key<'k>>,
    {
        if keys.len() != out.len() {
            return Err(ListError::Lengths { queries: keys.len(), room: out.len() });
        }
        let (mut missing, mut wrong) = (0, 0);
        for (keys, out) in keys.chunks(SOME).zip(out.chunks_mut(SOME)) {
            match self.get_some(keys.iter().map(Into::into), as_u64_mut(out)) {
                Ok(more) => missing += more,
                Err(ListError::WrongTables { wrong: more }) => wrong += more,
                Err(why) => return Err(why),
            }
        }
        if wrong > 0 {
            Err(ListError::WrongTables { wrong })
        } else {
            Ok(missing)
        }
    }

    /// The numbers of as many keys as there is room for, at most `SOME`.
    fn get_some<'k>(&self, keys: impl Iterator<Item = Key<'k>>, out: &mut [u64]) -> Result<usize, ListError> {
        let (mut hashes, mut key_prints, len) = ([0; SOME], [0; SOME], out.len());
        for ((hash, print), key) in hashes.iter_mut().zip(&mut key_prints).zip(keys) {
            (*hash, *print) = key_hash(key, self.seed());
        }
        let KeyParts { hash, prints, prints_len, width, .. } = self.block.parts();
        let (of, own) = (hashes[..len].as_ptr(), key_prints[..len].as_ptr());
        query_list(len, out, |to, room, counts| {
            // SAFETY: a hash and fingerprints in the borrowed block, slices, the mutable one apart from the others,
            // and room for the counts.
            unsafe {
                bitm_hash_find_list_seeded(hash, *prints, *prints_len, *width, of, len, own, len, to, room, counts)
            }
        })
    }

    pub(crate) fn show(&self, f: &mut fmt::Formatter<'_>, name: &str) -> fmt::Result {
        f.debug_struct(name).field("keys", &self.len()).field("width", &self.bits()).finish()
    }
}
