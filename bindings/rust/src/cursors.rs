//! Cursors over sequences: moves that panic where parts are wrong, and iterators over what several sequences share or
//! have.
use crate::errors::{sure, WrongTables};
use crate::sys::cursor::Cursor;
use crate::sys::owned::Sequence;
use crate::sys::sequence::SequenceView;
use alloc::vec::Vec;
use core::fmt;
use core::iter::FusedIterator;

impl<'a> SequenceView<'a> {
    /// A cursor at the first number, which moves forward only. Panics where the parts are noticed to be wrong.
    ///
    /// ```
    /// let primes = bitm_proved::EliasFano::build(&[2, 3, 5, 7])?;
    /// assert_eq!(primes.view().cursor().next_geq(6), Some(7));
    /// # Ok::<(), bitm_proved::BuildError>(())
    /// ```
    #[track_caller]
    pub fn cursor(&self) -> Cursor<'a> {
        sure(Cursor::new(self))
    }
}

impl<O> Sequence<O> {
    /// A cursor at the first number, which moves forward only. Panics where the parts are noticed to be wrong.
    ///
    /// ```
    /// let primes = bitm_proved::EliasFano::build(&[2, 3, 5, 7])?;
    /// let mut cursor = primes.cursor();
    /// assert_eq!((cursor.next_geq(4), cursor.index()), (Some(5), 2));
    /// # Ok::<(), bitm_proved::BuildError>(())
    /// ```
    #[track_caller]
    pub fn cursor(&self) -> Cursor<'_> {
        self.view().cursor()
    }
}

impl<'a> Cursor<'a> {
    /// Moves to the first number from here on that is at least `value`, and returns it; stays where the number here
    /// already is. `None` where each is less: it is at the end then. One proved call.
    ///
    /// ```
    /// let primes = bitm_proved::EliasFano::build(&[2, 3, 5, 7])?;
    /// let mut cursor = primes.cursor();
    /// assert_eq!((cursor.next_geq(4), cursor.next_geq(0), cursor.next_geq(8)), (Some(5), Some(5), None));
    /// # Ok::<(), bitm_proved::BuildError>(())
    /// ```
    #[inline]
    #[track_caller]
    pub fn next_geq(&mut self, value: u64) -> Option<u64> {
        sure(self.checked_next_geq(value))
    }

    /// The numbers that stand in the sequence of each cursor, from the cursors on: ascending, each once. Panics where
    /// there is no cursor. The shortest sequence is best first.
    ///
    /// ```
    /// use bitm_proved::{Cursor, EliasFano};
    /// let (odd, primes) = (EliasFano::build(&[1, 3, 5, 7, 9])?, EliasFano::build(&[2, 3, 5, 7])?);
    /// assert!(Cursor::intersection([odd.cursor(), primes.cursor()]).eq([3, 5, 7]));
    /// # Ok::<(), bitm_proved::BuildError>(())
    /// ```
    #[track_caller]
    pub fn intersection(lists: impl Into<Vec<Self>>) -> Merged<'a> {
        let lists = lists.into();
        assert!(!lists.is_empty(), "there is no cursor");
        Merged::new(Cursor::checked_intersect, lists)
    }

    /// The numbers that stand in the sequence of any cursor, likewise.
    ///
    /// ```
    /// use bitm_proved::{Cursor, EliasFano};
    /// let (odd, primes) = (EliasFano::build(&[1, 3, 5, 7, 9])?, EliasFano::build(&[2, 3, 5, 7])?);
    /// assert!(Cursor::union([odd.cursor(), primes.cursor()]).eq([1, 2, 3, 5, 7, 9]));
    /// # Ok::<(), bitm_proved::BuildError>(())
    /// ```
    pub fn union(lists: impl Into<Vec<Self>>) -> Merged<'a> {
        Merged::new(Cursor::checked_union, lists.into())
    }
}

impl Iterator for Cursor<'_> {
    type Item = u64;

    #[inline]
    #[track_caller]
    fn next(&mut self) -> Option<u64> {
        let here = self.number()?;
        match here.checked_add(1) {
            Some(more) => {
                self.next_geq(more);
            }
            None => self.end(),
        }
        Some(here)
    }
}

impl FusedIterator for Cursor<'_> {}

impl fmt::Debug for Cursor<'_> {
    fn fmt(&self, f: &mut fmt::Formatter<'_>) -> fmt::Result {
        f.debug_struct("Cursor").field("index", &self.index()).field("number", &self.number()).finish()
    }
}

/// How many numbers are read by one call.
const BLOCK: usize = 64;

type Merge<'a> = for<'c, 'b> fn(&'c mut [Cursor<'a>], u64, &'b mut [u64]) -> Result<&'b [u64], WrongTables>;

/// The numbers that several sequences share, or that any of them has: of [`Cursor::intersection`] and [`Cursor::union`].
/// They are read in blocks by the proved calls; what is kept of them is tested, not proved.
///
/// ```
/// use bitm_proved::{Cursor, EliasFano, Merged};
/// let odd = EliasFano::build(&[1, 3, 5])?;
/// let mut both: Merged<'_> = Cursor::intersection(vec![odd.cursor(); 3]);
/// assert_eq!((both.next(), both.by_ref().last(), both.next()), (Some(1), Some(5), None));
/// # Ok::<(), bitm_proved::BuildError>(())
/// ```
#[derive(Clone)]
pub struct Merged<'a> {
    call: Merge<'a>,
    lists: Vec<Cursor<'a>>,
    /// Of the next block; `None` where there is none.
    from: Option<u64>,
    at: usize,
    len: usize,
    block: [u64; BLOCK],
}

impl<'a> Merged<'a> {
    fn new(call: Merge<'a>, lists: Vec<Cursor<'a>>) -> Self {
        Merged { call, lists, from: Some(0), at: 0, len: 0, block: [0; BLOCK] }
    }

    /// Reads the next block.
    #[track_caller]
    fn read(&mut self, from: u64) {
        self.len = sure((self.call)(&mut self.lists, from, &mut self.block)).len();
        self.at = 0;
        let is_full = self.len == BLOCK;
        self.from = if is_full { self.block[BLOCK - 1].checked_add(1) } else { None };
    }
}

impl Iterator for Merged<'_> {
    type Item = u64;

    #[inline]
    #[track_caller]
    fn next(&mut self) -> Option<u64> {
        if self.at == self.len {
            let from = self.from?;
            self.read(from);
        }
        let found = self.block[..self.len].get(self.at).copied();
        self.at += usize::from(found.is_some());
        found
    }
}

impl FusedIterator for Merged<'_> {}

impl fmt::Debug for Merged<'_> {
    fn fmt(&self, f: &mut fmt::Formatter<'_>) -> fmt::Result {
        f.debug_struct("Merged").field("lists", &self.lists).finish_non_exhaustive()
    }
}
