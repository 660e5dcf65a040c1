//! Dictionaries: queries that panic where their block is wrong.
use crate::answers::{answers, by_view};
use crate::errors::ListError;
use crate::sys::dictionary::owned::Dictionary;
use crate::sys::dictionary::DictionaryView;

answers! { DictionaryView, Dictionary;
    /// The number of a key, which is where it stands among the keys; `None` where it is no key. One proved call.
    ///
    /// ```
    /// let squares = bitm_proved::Dictionary::build(&[4, 9, 49])?;
    /// assert_eq!((squares.keys()[squares.find(9).unwrap()], squares.find(10)), (9, None));
    /// # Ok::<(), bitm_proved::BuildError>(())
    /// ```
    pub fn find(&self, key: u64) -> Option<usize> = checked_find;

    /// Whether it is a key. One proved call.
    ///
    /// ```
    /// let squares = bitm_proved::Dictionary::build(&[4, 9, 49])?;
    /// assert_eq!((squares.contains(9), squares.contains(10)), (true, false));
    /// # Ok::<(), bitm_proved::BuildError>(())
    /// ```
    pub fn contains(&self, key: u64) -> bool = has;
}

by_view! { Dictionary;
    /// How many keys there are.
    ///
    /// ```
    /// assert_eq!(bitm_proved::Dictionary::build(&[4, 9, 49])?.len(), 3);
    /// # Ok::<(), bitm_proved::BuildError>(())
    /// ```
    pub fn len(&self) -> usize;

    /// Whether there are none.
    ///
    /// ```
    /// use bitm_proved::Dictionary;
    /// assert!(Dictionary::build(&[])?.is_empty() && !Dictionary::build(&[0])?.is_empty());
    /// # Ok::<(), bitm_proved::BuildError>(())
    /// ```
    pub fn is_empty(&self) -> bool;

    /// The words of the block, which is also the file of this dictionary.
    ///
    /// ```
    /// use bitm_proved::Dictionary;
    /// let made = Dictionary::build(&[4, 9, 49])?;
    /// assert_eq!(Dictionary::from_words(made.block())?.block(), made.block());
    /// # Ok::<(), Box<dyn std::error::Error>>(())
    /// ```
    pub fn block(&self) -> &[u64];

    /// The keys, in the order of their numbers.
    ///
    /// ```
    /// let squares = bitm_proved::Dictionary::build(&[4, 9, 49])?;
    /// assert_eq!(squares.keys()[squares.find(4).unwrap()], 4);
    /// # Ok::<(), bitm_proved::BuildError>(())
    /// ```
    pub fn keys(&self) -> &[u64];

    /// What is added to each key to hash it.
    ///
    /// ```
    /// assert_eq!(bitm_proved::Dictionary::build(&[4, 9, 49])?.seed(), 0);
    /// # Ok::<(), bitm_proved::BuildError>(())
    /// ```
    pub fn seed(&self) -> u64;

    /// Whether the block is as it was written and holds a dictionary: looks at all of it.
    ///
    /// ```
    /// assert!(bitm_proved::Dictionary::build(&[4, 9, 49])?.check());
    /// # Ok::<(), bitm_proved::BuildError>(())
    /// ```
    pub fn check(&self) -> bool;

    /// The numbers of a list of keys; returns how many of them are no keys, written as `NO_ANSWER`.
    ///
    /// ```
    /// use bitm_proved::{Dictionary, NO_ANSWER};
    /// let (squares, mut out) = (Dictionary::build(&[4])?, [9; 2]);
    /// assert_eq!((squares.find_list(&[4, 5], &mut out), out), (Ok(1), [0, NO_ANSWER]));
    /// # Ok::<(), bitm_proved::BuildError>(())
    /// ```
    pub fn find_list(&self, keys: &[u64], out: &mut [usize]) -> Result<usize, ListError>;
}
