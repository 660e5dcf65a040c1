//! Hashes with seeds: queries that panic where their block is wrong.
use crate::answers::{answers, by_view};
use crate::errors::ListError;
use crate::sys::seeded::owned::SeededHash;
use crate::sys::seeded::SeededHashView;

answers! { SeededHashView, SeededHash;
    /// The number of a hash; `None` where it is of no key for certain. One proved call.
    ///
    /// ```
    /// let numbers = bitm_proved::SeededHash::build(vec![5, 7, 9])?;
    /// let mut found = [5, 7, 9].map(|hash| numbers.get(hash));
    /// found.sort();
    /// assert_eq!(found, [Some(0), Some(1), Some(2)]);
    /// # Ok::<(), bitm_proved::BuildError>(())
    /// ```
    pub fn get(&self, hash: u64) -> Option<usize> = checked_get;

    /// The number of a key, by its hash and its fingerprint; `None` where the fingerprint at that number is another, so a
    /// value that is no key has a number once in 2^`width`. One proved call.
    ///
    /// It panics where `width` is above 64, or there is no fingerprint at that number.
    ///
    /// ```
    /// let (numbers, mut prints) = (bitm_proved::SeededHash::build(vec![5, 7])?, [0]);
    /// assert_eq!(numbers.set_prints(&[5, 7], &[1, 2], &mut prints, 8), Ok(true));
    /// assert_eq!((numbers.find(&prints, 8, 7, 2), numbers.find(&prints, 8, 7, 3)), (numbers.get(7), None));
    /// # Ok::<(), bitm_proved::BuildError>(())
    /// ```
    pub fn find(&self, prints: &[u64], width: u32, hash: u64, key_print: u64) -> Option<usize> = checked_find;
}

by_view! { SeededHash;
    /// How many keys there are.
    ///
    /// ```
    /// assert_eq!(bitm_proved::SeededHash::build(vec![5, 7, 9])?.len(), 3);
    /// # Ok::<(), bitm_proved::BuildError>(())
    /// ```
    pub fn len(&self) -> usize;

    /// Whether there are none.
    ///
    /// ```
    /// use bitm_proved::SeededHash;
    /// assert!(SeededHash::build(vec![])?.is_empty() && !SeededHash::build(vec![5])?.is_empty());
    /// # Ok::<(), bitm_proved::BuildError>(())
    /// ```
    pub fn is_empty(&self) -> bool;

    /// The words of the block, which is also the file of this hash.
    ///
    /// ```
    /// use bitm_proved::SeededHash;
    /// let made = SeededHash::build(vec![5, 7, 9])?;
    /// assert_eq!(SeededHash::from_words(made.block())?.block(), made.block());
    /// # Ok::<(), Box<dyn std::error::Error>>(())
    /// ```
    pub fn block(&self) -> &[u64];

    /// The seed that the block was built with, which is yours.
    ///
    /// ```
    /// assert_eq!(bitm_proved::SeededHash::build(vec![5, 7, 9])?.seed(), 0);
    /// # Ok::<(), bitm_proved::BuildError>(())
    /// ```
    pub fn seed(&self) -> u64;

    /// Whether the block is as it was written and holds a hash with seeds: looks at all of it.
    ///
    /// ```
    /// assert!(bitm_proved::SeededHash::build(vec![5, 7, 9])?.check());
    /// # Ok::<(), bitm_proved::BuildError>(())
    /// ```
    pub fn check(&self) -> bool;

    /// The numbers of a list of hashes; returns how many have none, written as `NO_ANSWER`.
    ///
    /// ```
    /// let (numbers, mut out) = (bitm_proved::SeededHash::build(vec![5])?, [9]);
    /// assert_eq!((numbers.get_list(&[5], &mut out), out), (Ok(0), [0])); // the only number below 1
    /// # Ok::<(), bitm_proved::BuildError>(())
    /// ```
    pub fn get_list(&self, hashes: &[u64], out: &mut [usize]) -> Result<usize, ListError>;

    /// Writes fingerprints of keys at their numbers, as [`SeededHashView::set_prints`] does. It panics where `width` is
    /// above 64.
    ///
    /// ```
    /// let (numbers, mut prints) = (bitm_proved::SeededHash::build(vec![5])?, [0]);
    /// assert_eq!((numbers.set_prints(&[5], &[0x109], &mut prints, 8), prints), (Ok(true), [9])); // its lowest 8 bits
    /// # Ok::<(), bitm_proved::BuildError>(())
    /// ```
    #[track_caller]
    pub fn set_prints(
        &self,
        hashes: &[u64],
        key_prints: &[u64],
        prints: &mut [u64],
        width: u32,
    ) -> Result<bool, ListError>;

    /// The numbers of a list of keys, by their hashes and fingerprints; returns how many have none, written as
    /// `NO_ANSWER`. It panics where `width` is above 64.
    ///
    /// ```
    /// use bitm_proved::{SeededHash, NO_ANSWER};
    /// let (numbers, mut out) = (SeededHash::build(vec![5])?, [7; 2]);
    /// assert_eq!((numbers.find_list(&[9], 8, &[5, 5], &[9, 8], &mut out), out), (Ok(1), [0, NO_ANSWER]));
    /// # Ok::<(), bitm_proved::BuildError>(())
    /// ```
    #[track_caller]
    pub fn find_list(
        &self,
        prints: &[u64],
        width: u32,
        hashes: &[u64],
        key_prints: &[u64],
        out: &mut [usize],
    ) -> Result<usize, ListError>;
}
