//! The queries that a hash without seeds and one with them have: numbers, and fingerprints of keys.

/// A fingerprint has no more bits.
#[track_caller]
pub(crate) fn fingerprint_width(width: u32) {
    assert!(width <= 64, "a fingerprint has at most 64 bits, not {width}");
}

/// The queries of a hash that return errors. How C gets the hash; the calls of C; the type that is built, and what of a
/// value `numbers` of it is queried.
macro_rules! hash_queries {
    ($kind:ty;
     |$it:ident| $raw:expr, $get:ident, $get_list:ident, $set:ident, $find:ident, $find_list:ident;
     $built:literal, $queried:literal) => {
        impl $kind {
            /// As `get`, with an error where the tables turn out to be wrong.
            ///
            /// ```
            #[doc = concat!("let numbers = bitm_proved::", $built, "::build(vec![5])?;")]
            #[doc = concat!("assert_eq!(", $queried, ".checked_get(5), Ok(Some(0))); // the only number below 1")]
            /// # Ok::<(), bitm_proved::BuildError>(())
            /// ```
            pub fn checked_get(&self, hash: u64) -> Result<Option<usize>, WrongTables> {
                let $it = self;
                // SAFETY: borrowed slices, and room for the number that the call writes where it returns OK.
                let found = unsafe { $crate::sys::query(|out| $get($raw, hash, out)) };
                Ok(found?.map(|it| it as usize))
            }

            /// The numbers of a list of hashes; returns how many have none, written as `NO_ANSWER`.
            ///
            /// ```
            #[doc = concat!("use bitm_proved::{ListError, ", $built, "};")]
            #[doc = concat!("let (numbers, mut out) = (", $built, "::build(vec![5, 7])?, [9; 2]);")]
            #[doc = concat!("assert_eq!(", $queried, ".get_list(&[5, 7], &mut out), Ok(0));")]
            /// assert!(out == [0, 1] || out == [1, 0]);
            /// let lengths = ListError::Lengths { queries: 1, room: 2 };
            #[doc = concat!("assert_eq!(", $queried, ".get_list(&[5], &mut out), Err(lengths));")]
            /// # Ok::<(), bitm_proved::BuildError>(())
            /// ```
            pub fn get_list(&self, hashes: &[u64], out: &mut [usize]) -> Result<usize, ListError> {
                let $it = self;
                let out = $crate::sys::memory::as_u64_mut(out);
                $crate::sys::lists::query_list(hashes.len(), out, |to, room, counts| {
                    // SAFETY: borrowed slices that do not overlap, and room for the counts.
                    unsafe { $get_list($raw, hashes.as_ptr(), hashes.len(), to, room, counts) }
                })
            }

            /// Writes the `width` lowest bits of the fingerprint of each key at its number, as an array in words of
            /// yours. By them `find` answers `None` for almost all that are no keys. A fingerprint is any number that
            /// you compute from a key beside its hash. Returns whether each hash has a number, and its fingerprint
            /// room; the other fingerprints are written all the same.
            ///
            /// It panics where `width` is above 64.
            ///
            /// ```
            #[doc = concat!("use bitm_proved::{ListError, ", $built, "};")]
            #[doc = concat!("let (numbers, mut prints) = (", $built, "::build(vec![5, 7])?, [0]);")]
            #[doc = concat!("assert_eq!(", $queried, ".set_prints(&[5, 7], &[1, 2], &mut prints, 8), Ok(true));")]
            /// assert!(prints == [0x0201] || prints == [0x0102]);
            #[doc = concat!("assert_eq!(", $queried, ".set_prints(&[5, 7], &[1, 2], &mut [], 8), Ok(false)); // no room")]
            /// let pairs = ListError::Pairs { first: 2, second: 1 };
            #[doc = concat!("assert_eq!(", $queried, ".set_prints(&[5, 7], &[1], &mut prints, 8), Err(pairs));")]
            /// # Ok::<(), bitm_proved::BuildError>(())
            /// ```
            #[track_caller]
            pub fn set_prints(
                &self,
                hashes: &[u64],
                key_prints: &[u64],
                prints: &mut [u64],
                width: u32,
            ) -> Result<bool, ListError> {
                $crate::sys::hash::fingerprint_width(width);
                let pairs = $crate::sys::lists::pairs(hashes.len(), key_prints.len())?;
                let ($it, to, room) = (self, prints.as_mut_ptr(), prints.len());
                let (of, own) = (hashes.as_ptr(), key_prints.as_ptr());
                // SAFETY: borrowed slices; the mutable one overlaps no other.
                let status = unsafe { $set($raw, of, pairs, own, pairs, to, room, width) };
                Ok(status == $crate::sys::OK)
            }

            /// As `find`, with an error where the tables turn out to be wrong, or there is no fingerprint at the number.
            ///
            /// It panics where `width` is above 64.
            ///
            /// ```
            /// use bitm_proved::WrongTables;
            #[doc = concat!("let numbers = bitm_proved::", $built, "::build(vec![5])?;")]
            #[doc = concat!("assert_eq!(", $queried, ".checked_find(&[9], 8, 5, 9), Ok(Some(0)));")]
            #[doc = concat!("assert_eq!(", $queried, ".checked_find(&[9], 8, 5, 8), Ok(None)); // its fingerprint is 9")]
            #[doc = concat!("assert_eq!(", $queried, ".checked_find(&[], 8, 5, 9), Err(WrongTables));")]
            /// # Ok::<(), bitm_proved::BuildError>(())
            /// ```
            #[track_caller]
            pub fn checked_find(
                &self,
                prints: &[u64],
                width: u32,
                hash: u64,
                key_print: u64,
            ) -> Result<Option<usize>, WrongTables> {
                $crate::sys::hash::fingerprint_width(width);
                let ($it, at, len) = (self, prints.as_ptr(), prints.len());
                // SAFETY: borrowed slices, and room for the number that the call writes where it returns OK.
                let found = unsafe { $crate::sys::query(|out| $find($raw, at, len, width, hash, key_print, out)) };
                Ok(found?.map(|it| it as usize))
            }

            /// The numbers of a list of keys, by their hashes and fingerprints; returns how many have none, written as
            /// `NO_ANSWER`.
            ///
            /// It panics where `width` is above 64.
            ///
            /// ```
            #[doc = concat!("use bitm_proved::{", $built, ", NO_ANSWER};")]
            #[doc = concat!("let (numbers, mut out) = (", $built, "::build(vec![5])?, [7; 2]);")]
            #[doc = concat!("let missing = ", $queried, ".find_list(&[9], 8, &[5, 5], &[9, 8], &mut out);")]
            /// assert_eq!((missing, out), (Ok(1), [0, NO_ANSWER])); // the fingerprint of 5 is 9
            /// # Ok::<(), bitm_proved::BuildError>(())
            /// ```
            #[track_caller]
            pub fn find_list(
                &self,
                prints: &[u64],
                width: u32,
                hashes: &[u64],
                key_prints: &[u64],
                out: &mut [usize],
            ) -> Result<usize, ListError> {
                $crate::sys::hash::fingerprint_width(width);
                let pairs = $crate::sys::lists::pairs(hashes.len(), key_prints.len())?;
                let ($it, at, len) = (self, prints.as_ptr(), prints.len());
                let (of, own) = (hashes.as_ptr(), key_prints.as_ptr());
                $crate::sys::lists::query_list(pairs, $crate::sys::memory::as_u64_mut(out), |to, room, counts| {
                    // SAFETY: borrowed slices; the mutable one overlaps no other, and room for the counts.
                    unsafe { $find_list($raw, at, len, width, of, pairs, own, pairs, to, room, counts) }
                })
            }
        }
    };
}
pub(crate) use hash_queries;
