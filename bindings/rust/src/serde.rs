//! Values by `serde`, with the feature of that name: as the words of a file, which are checked where they are read.
use crate::errors::NoMemory;
use crate::queries::Queries;
use crate::sys::dictionary::owned::Dictionary;
use crate::sys::index::Index;
use crate::sys::key_hash::owned::KeyHash;
use crate::sys::matrix::owned::WaveletMatrix;
use crate::sys::owned::{EliasFano, Sequence};
use crate::sys::seeded::owned::SeededHash;
use crate::sys::sparse::owned::SparseBits;
use crate::sys::strings::owned::Strings;
use crate::sys::tree::owned::Tree;
use crate::sys::trie::owned::Trie;
use alloc::vec::Vec;
use core::fmt;
use serde::de::{Error as _, SeqAccess, Visitor};
use serde::{ser::Error as _, Deserialize, Deserializer, Serialize, Serializer};

impl<O> Serialize for Index<O> {
    fn serialize<S: Serializer>(&self, to: S) -> Result<S::Ok, S::Error> {
        let words = self.view().to_words().map_err(S::Error::custom)?;
        words.serialize(to)
    }
}

impl<O> Serialize for Sequence<O> {
    fn serialize<S: Serializer>(&self, to: S) -> Result<S::Ok, S::Error> {
        let words = self.to_stored().map_err(S::Error::custom)?;
        words.serialize(to)
    }
}

macro_rules! serializes_its_block {
    ($($kind:ident),*) => { $(
        impl<O> Serialize for $kind<O> {
            fn serialize<S: Serializer>(&self, to: S) -> Result<S::Ok, S::Error> {
                self.block().serialize(to)
            }
        }
    )* };
}
serializes_its_block!(Tree, Trie, WaveletMatrix, SparseBits, SeededHash, KeyHash, Dictionary, Strings);

/// Reads words, and says where memory for them is refused.
struct Words;

impl<'de> Visitor<'de> for Words {
    type Value = Vec<u64>;

    fn expecting(&self, f: &mut fmt::Formatter<'_>) -> fmt::Result {
        f.write_str("the words of a file")
    }

    fn visit_seq<A: SeqAccess<'de>>(self, mut from: A) -> Result<Vec<u64>, A::Error> {
        let mut words = Vec::new();
        while let Some(word) = from.next_element()? {
            let refused = NoMemory { bytes: 8 * (words.len() + 1) };
            words.try_reserve(1).map_err(|_| A::Error::custom(refused))?;
            words.push(word);
        }
        Ok(words)
    }
}

macro_rules! deserializes_what_is_right {
    ($($kind:ty),*) => { $(
        impl<'de> Deserialize<'de> for $kind {
            fn deserialize<D: Deserializer<'de>>(from: D) -> Result<Self, D::Error> {
                let words = from.deserialize_seq(Words)?;
                let made = <$kind>::from_words(words).map_err(D::Error::custom)?;
                let right = made.check();
                right.then_some(made).ok_or_else(|| D::Error::custom(crate::WrongTables))
            }
        }
    )* };
}
deserializes_what_is_right!(Index<Vec<u64>>, EliasFano, Tree, Trie, WaveletMatrix);
deserializes_what_is_right!(SparseBits, SeededHash, KeyHash, Dictionary, Strings);
