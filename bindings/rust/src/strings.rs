//! Strings: queries that panic where their block is wrong.
use crate::answers::{answers, by_view};
use crate::sys::strings::owned::Strings;
use crate::sys::strings::StringsView;

answers! { StringsView, Strings;
    /// The number of a string; `None` for any other string. One proved call.
    ///
    /// ```
    /// let names = bitm_proved::Strings::build(&["ada", "bob"])?;
    /// assert_eq!((names.get(names.find(b"bob").unwrap()), names.find(b"bo")), (Some(&b"bob"[..]), None));
    /// # Ok::<(), bitm_proved::BuildError>(())
    /// ```
    pub fn find(&self, string: &[u8]) -> Option<usize> = checked_find;

    /// Whether it is one of the strings. One proved call.
    ///
    /// ```
    /// let names = bitm_proved::Strings::build(&["ada", "bob"])?;
    /// assert_eq!((names.contains(b"ada"), names.contains(b"adabob")), (true, false));
    /// # Ok::<(), bitm_proved::BuildError>(())
    /// ```
    pub fn contains(&self, string: &[u8]) -> bool = has;

    /// The string of a number; `None` where there is no such number. One proved call.
    ///
    /// ```
    /// let names = bitm_proved::Strings::build(&["ada"])?;
    /// assert_eq!((names.get(0), names.get(1)), (Some(&b"ada"[..]), None));
    /// # Ok::<(), bitm_proved::BuildError>(())
    /// ```
    pub fn get(&self, number: usize) -> Option<&[u8]> = checked_get;
}

by_view! { Strings;
    /// How many strings there are.
    ///
    /// ```
    /// assert_eq!(bitm_proved::Strings::build(&["ada", "bob"])?.len(), 2);
    /// # Ok::<(), bitm_proved::BuildError>(())
    /// ```
    pub fn len(&self) -> usize;

    /// Whether there are none.
    ///
    /// ```
    /// use bitm_proved::Strings;
    /// assert!(Strings::build::<&str>(&[])?.is_empty() && !Strings::build(&[""])?.is_empty());
    /// # Ok::<(), bitm_proved::BuildError>(())
    /// ```
    pub fn is_empty(&self) -> bool;

    /// The words of the block, which is also the file of these strings.
    ///
    /// ```
    /// use bitm_proved::Strings;
    /// let made = Strings::build(&["ada", "bob"])?;
    /// assert_eq!(Strings::from_words(made.block())?.block(), made.block());
    /// # Ok::<(), Box<dyn std::error::Error>>(())
    /// ```
    pub fn block(&self) -> &[u64];

    /// The seed of the hashes of the strings.
    ///
    /// ```
    /// assert_eq!(bitm_proved::Strings::build(&["ada", "bob"])?.seed(), 0);
    /// # Ok::<(), bitm_proved::BuildError>(())
    /// ```
    pub fn seed(&self) -> u64;

    /// Whether the block is as it was written and holds strings: looks at all of it.
    ///
    /// ```
    /// assert!(bitm_proved::Strings::build(&["ada", "bob"])?.check());
    /// # Ok::<(), bitm_proved::BuildError>(())
    /// ```
    pub fn check(&self) -> bool;
}
