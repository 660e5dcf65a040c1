//! Perfect hashes of keys: queries that panic where their block is wrong.
use crate::answers::{answers, by_view};
use crate::errors::ListError;
use crate::keys::Key;
use crate::sys::key_hash::owned::KeyHash;
use crate::sys::key_hash::KeyHashView;

answers! { KeyHashView, KeyHash;
    /// The number of a key; `None` where it is none for certain: of what is no key a number is found once in 2^`bits`.
    /// One proved call, and one that hashes the key.
    ///
    /// ```
    /// let names = bitm_proved::KeyHash::build(&["ada"])?;
    /// assert_eq!((names.get("ada"), names.get("bob"), names.get(7)), (Some(0), None, None));
    /// # Ok::<(), bitm_proved::BuildError>(())
    /// ```
    pub fn get<'k>(&self, key: impl Into<Key<'k>>) -> Option<usize> = checked_get;
}

by_view! { KeyHash;
    /// How many keys there are.
    ///
    /// ```
    /// assert_eq!(bitm_proved::KeyHash::build(&["ada", "bob"])?.len(), 2);
    /// # Ok::<(), bitm_proved::BuildError>(())
    /// ```
    pub fn len(&self) -> usize;

    /// Whether there are none.
    ///
    /// ```
    /// use bitm_proved::KeyHash;
    /// assert!(KeyHash::build([0u64; 0])?.is_empty() && !KeyHash::build([0])?.is_empty());
    /// # Ok::<(), bitm_proved::BuildError>(())
    /// ```
    pub fn is_empty(&self) -> bool;

    /// The words of the block, which is also the file of this hash.
    ///
    /// ```
    /// use bitm_proved::KeyHash;
    /// let made = KeyHash::build(&["ada", "bob"])?;
    /// assert_eq!(KeyHash::from_words(made.block())?.get("bob"), made.get("bob"));
    /// # Ok::<(), Box<dyn std::error::Error>>(())
    /// ```
    pub fn block(&self) -> &[u64];

    /// The seed by which keys are hashed.
    ///
    /// ```
    /// assert_eq!(bitm_proved::KeyHash::build(&["ada", "bob"])?.seed(), 1);
    /// # Ok::<(), bitm_proved::BuildError>(())
    /// ```
    pub fn seed(&self) -> u64;

    /// How many bits the fingerprint of a key has.
    ///
    /// ```
    /// assert_eq!(bitm_proved::KeyHash::build(&["ada", "bob"])?.bits(), 16);
    /// # Ok::<(), bitm_proved::BuildError>(())
    /// ```
    pub fn bits(&self) -> u32;

    /// Whether the words of the hash have seeds.
    ///
    /// ```
    /// assert!(!bitm_proved::KeyHash::build(&["ada", "bob"])?.has_seeds());
    /// # Ok::<(), bitm_proved::BuildError>(())
    /// ```
    pub fn has_seeds(&self) -> bool;

    /// Whether the block is as it was written and holds a hash of keys: looks at all of it.
    ///
    /// ```
    /// assert!(bitm_proved::KeyHash::build(&["ada", "bob"])?.check());
    /// # Ok::<(), bitm_proved::BuildError>(())
    /// ```
    pub fn check(&self) -> bool;
}

impl<O> KeyHash<O> {
    /// The numbers of a list of keys; returns how many have none, written as `NO_ANSWER`.
    ///
    /// ```
    /// use bitm_proved::{KeyHash, NO_ANSWER};
    /// let (names, mut out) = (KeyHash::build(&["ada"])?, [9; 2]);
    /// assert_eq!((names.get_list(&["ada", "bob"], &mut out), out), (Ok(1), [0, NO_ANSWER]));
    /// # Ok::<(), bitm_proved::BuildError>(())
    /// ```
    pub fn get_list<'k, K>(&self, keys: &'k [K], out: &mut [usize]) -> Result<usize, ListError>
    where
        &'k K: Into<Key<'k>>,
    {
        self.view().get_list(keys, out)
    }
}
