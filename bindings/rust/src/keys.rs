//! Keys of a perfect hash: text, bytes and whole numbers.
use alloc::string::String;
use alloc::vec::Vec;

/// A key of a [`KeyHash`](crate::KeyHash): text, bytes or a whole number, which are different keys even where they have
/// the same bytes. Numbers of any type are one key where they are equal.
///
/// ```
/// use bitm_proved::{Key, KeyHash};
/// let keys = KeyHash::build([Key::Text("ab"), Key::Bytes(b"ab"), Key::Number(-5)])?;
/// assert!(keys.get("ab") != keys.get(b"ab") && keys.get(-5i8) == keys.get(-5i128));
/// # Ok::<(), bitm_proved::BuildError>(())
/// ```
#[derive(Clone, Copy, PartialEq, Eq, Debug)]
pub enum Key<'k> {
    /// Text: hashed as UTF-8.
    ///
    /// ```
    /// use bitm_proved::Key;
    /// assert_eq!(Key::from("ab"), Key::Text("ab"));
    /// ```
    Text(&'k str),
    /// Bytes.
    ///
    /// ```
    /// use bitm_proved::Key;
    /// assert_eq!(Key::from(b"ab"), Key::Bytes(&[97, 98]));
    /// ```
    Bytes(&'k [u8]),
    /// A whole number.
    ///
    /// ```
    /// use bitm_proved::Key;
    /// assert_eq!((Key::from(7u8), Key::from(u64::MAX)), (Key::Number(7), Key::Number(u64::MAX.into())));
    /// ```
    Number(i128),
}

impl<'k> From<&Key<'k>> for Key<'k> {
    fn from(key: &Key<'k>) -> Self {
        *key
    }
}

macro_rules! keys_of {
    ($($variant:ident: $($kind:ty),*;)*) => { $($(
        impl<'k> From<&'k $kind> for Key<'k> {
            fn from(key: &'k $kind) -> Self {
                Key::$variant(key)
            }
        }
        impl<'k> From<&&'k $kind> for Key<'k> {
            fn from(key: &&'k $kind) -> Self {
                Key::$variant(key)
            }
        }
    )*)* };
}
keys_of! { Text: str, String; Bytes: [u8], Vec<u8>; }

impl<'k, const N: usize> From<&'k [u8; N]> for Key<'k> {
    fn from(key: &'k [u8; N]) -> Self {
        Key::Bytes(key)
    }
}

impl<'k, const N: usize> From<&&'k [u8; N]> for Key<'k> {
    fn from(key: &&'k [u8; N]) -> Self {
        Key::Bytes(*key)
    }
}

macro_rules! numbers {
    ($($kind:ty),*) => { $(
        impl From<$kind> for Key<'_> {
            fn from(key: $kind) -> Self {
                Key::Number(key as i128)
            }
        }
        impl From<&$kind> for Key<'_> {
            fn from(key: &$kind) -> Self {
                Key::Number(*key as i128)
            }
        }
    )* };
}
numbers!(i8, i16, i32, i64, i128, isize, u8, u16, u32, u64, usize);

/// How the keys of a [`KeyHash`](crate::KeyHash) are hashed, and how much memory that takes.
///
/// ```
/// use bitm_proved::{KeyHash, KeyOptions};
/// let small = KeyOptions { bits: 8, tries: Some(64), ..KeyOptions::default() };
/// let keys = KeyHash::build_with(&["ada", "bob"], small)?;
/// assert_eq!((keys.bits(), keys.has_seeds(), keys.seed()), (8, true, 1));
/// # Ok::<(), bitm_proved::BuildError>(())
/// ```
#[derive(Clone, Copy, PartialEq, Eq, Debug)]
pub struct KeyOptions {
    /// The bits of a fingerprint, 0 to 32, 16 by default: what is no key has a number once in 2^`bits`.
    ///
    /// ```
    /// assert_eq!(bitm_proved::KeyOptions::default().bits, 16);
    /// ```
    pub bits: u32,
    /// How many bits a level has for each 100 keys that are left: 100, the default, takes least memory, 200 less time.
    ///
    /// ```
    /// use bitm_proved::{KeyHash, KeyOptions};
    /// let fast = KeyOptions { percent: 200, ..KeyOptions::default() };
    /// assert_eq!(KeyHash::build_with(&["ada", "bob"], fast)?.len(), 2);
    /// # Ok::<(), bitm_proved::BuildError>(())
    /// ```
    pub percent: u32,
    /// How many seeds are tried for each word of the levels, at most 256; none by default. With 64 a key takes 2.26
    /// bits beside its fingerprint, for 2.8 without, and building takes more time.
    ///
    /// ```
    /// assert_eq!(bitm_proved::KeyOptions::default().tries, None);
    /// ```
    pub tries: Option<u16>,
    /// The seed by which keys are hashed; by default the first of 1, 2, 3 and 4 that gives no two keys one hash. Python
    /// starts with 0, so with `Some(0)` the block equals the one of Python's `PerfectHash(keys)`.
    ///
    /// ```
    /// use bitm_proved::{KeyHash, KeyOptions};
    /// let secret = KeyOptions { seed: Some(0x5eed), ..KeyOptions::default() };
    /// assert_eq!(KeyHash::build_with(&["ada", "bob"], secret)?.seed(), 0x5eed);
    /// # Ok::<(), bitm_proved::BuildError>(())
    /// ```
    pub seed: Option<u64>,
}

impl Default for KeyOptions {
    fn default() -> Self {
        KeyOptions { bits: 16, percent: 100, tries: None, seed: None }
    }
}
