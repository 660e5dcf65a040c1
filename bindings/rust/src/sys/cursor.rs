//! Cursors over borrowed sequences, and what several of these share or have.
use crate::errors::WrongTables;
use crate::ffi::blocks::*;
use crate::sys::sequence::SequenceView;
use crate::sys::{query, OK};
use core::marker::PhantomData;

type Merge = unsafe extern "C" fn(*mut bitm_cursor, usize, u64, *mut u64, usize, *mut u64) -> u32;

/// A position in a sequence, which moves forward only: at a number, or at the end. Each move is one proved call.
///
/// As an iterator it gives the number where it stands, and moves on to the next greater one: each number once, however
/// often it is there. [`Numbers`](crate::Numbers) gives equal numbers one by one.
///
/// ```
/// use bitm_proved::{Cursor, EliasFano};
/// let primes = EliasFano::build(&[2, 3, 3, 5, 7, 11])?;
/// let mut cursor: Cursor<'_> = primes.cursor();
/// assert_eq!((cursor.next_geq(4), cursor.next_geq(4), cursor.index()), (Some(5), Some(5), 3)); // it stays there
/// assert_eq!((cursor.next(), cursor.number()), (Some(5), Some(7)));
/// assert!(cursor.eq([7, 11]) && primes.cursor().eq([2, 3, 5, 7, 11]));
/// # Ok::<(), bitm_proved::BuildError>(())
/// ```
#[derive(Clone)]
#[repr(transparent)]
pub struct Cursor<'a> {
    raw: bitm_cursor,
    borrows: PhantomData<&'a [u64]>,
}

// SAFETY: the pointers come from shared slices, and a call that moves a cursor has it alone.
unsafe impl Send for Cursor<'_> {}
// SAFETY: as for `Send`.
unsafe impl Sync for Cursor<'_> {}

impl<'a> Cursor<'a> {
    /// At the first number of a sequence, or at the end where there is none. Costs three selections.
    ///
    /// ```
    /// use bitm_proved::{Cursor, EliasFano};
    /// let primes = EliasFano::build(&[2, 3, 5, 7])?;
    /// assert_eq!(Cursor::new(primes.view())?.number(), Some(2));
    /// # Ok::<(), Box<dyn std::error::Error>>(())
    /// ```
    pub fn new(of: &SequenceView<'a>) -> Result<Self, WrongTables> {
        let mut raw = bitm_cursor { sequence: of.raw(), index: 0, position: 0, number: 0 };
        // SAFETY: a cursor over the parts of a view, which borrows its slices.
        match unsafe { bitm_cursor_start(&mut raw) } {
            OK => Ok(Cursor { raw, borrows: PhantomData }),
            _ => Err(WrongTables),
        }
    }

    /// The index of the number where it stands; how many numbers there are at the end.
    ///
    /// ```
    /// let primes = bitm_proved::EliasFano::build(&[2, 3, 5, 7])?;
    /// let mut cursor = primes.cursor();
    /// assert_eq!((cursor.next_geq(6), cursor.index()), (Some(7), 3));
    /// assert_eq!((cursor.next_geq(8), cursor.index()), (None, 4));
    /// # Ok::<(), bitm_proved::BuildError>(())
    /// ```
    #[inline]
    pub fn index(&self) -> usize {
        self.raw.index
    }

    /// The number where it stands; `None` at the end.
    ///
    /// ```
    /// let primes = bitm_proved::EliasFano::build(&[2, 3])?;
    /// let mut cursor = primes.cursor();
    /// assert_eq!((cursor.number(), cursor.by_ref().count(), cursor.number()), (Some(2), 2, None));
    /// # Ok::<(), bitm_proved::BuildError>(())
    /// ```
    #[inline]
    pub fn number(&self) -> Option<u64> {
        (self.raw.index < self.raw.sequence.len).then_some(self.raw.number)
    }

    /// Moves to the first number from here on that is at least `value`, and returns it; stays where the number here
    /// already is. `None` where each is less: it is at the end then. Reads 26 words where the number is near, else what
    /// three selections read too.
    ///
    /// ```
    /// let primes = bitm_proved::EliasFano::build(&[2, 3, 5, 7])?;
    /// let mut cursor = primes.cursor();
    /// assert_eq!((cursor.checked_next_geq(4), cursor.checked_next_geq(0)), (Ok(Some(5)), Ok(Some(5))));
    /// assert_eq!((cursor.checked_next_geq(8), cursor.checked_next_geq(0)), (Ok(None), Ok(None)));
    /// # Ok::<(), bitm_proved::BuildError>(())
    /// ```
    #[inline]
    pub fn checked_next_geq(&mut self, value: u64) -> Result<Option<u64>, WrongTables> {
        // SAFETY: a cursor whose parts are borrowed, and room for the number that the call writes where it returns OK.
        unsafe { query(|out| bitm_cursor_next(&mut self.raw, value, out)) }
    }

    /// Moves to the end.
    pub(crate) fn end(&mut self) {
        self.raw.index = self.raw.sequence.len;
    }

    /// The numbers from `from` on that stand in each of the sequences, from the cursors on: ascending, each once, as
    /// many as fit. Where there is no more room, a call with one more than the last number goes on. Each cursor moves
    /// at most once for each number of the first sequence, and once more, so pass the shortest first. Panics where
    /// there is no cursor.
    ///
    /// ```
    /// use bitm_proved::{Cursor, EliasFano};
    /// let (odd, primes) = (EliasFano::build(&[1, 3, 5, 7, 9])?, EliasFano::build(&[2, 3, 5, 7])?);
    /// let (mut lists, mut out) = ([odd.cursor(), primes.cursor()], [0; 2]);
    /// assert_eq!(Cursor::checked_intersect(&mut lists, 0, &mut out), Ok(&[3, 5][..]));
    /// assert_eq!(Cursor::checked_intersect(&mut lists, 6, &mut out), Ok(&[7][..]));
    /// # Ok::<(), bitm_proved::BuildError>(())
    /// ```
    #[track_caller]
    pub fn checked_intersect<'b>(lists: &mut [Self], from: u64, out: &'b mut [u64]) -> Result<&'b [u64], WrongTables> {
        assert!(!lists.is_empty(), "there is no cursor");
        Self::merge(bitm_cursors_intersect, lists, from, out)
    }

    /// The numbers from `from` on that stand in any of the sequences, likewise. Each cursor moves at most once for each
    /// number that is written, and once more.
    ///
    /// ```
    /// use bitm_proved::{Cursor, EliasFano};
    /// let (odd, primes) = (EliasFano::build(&[1, 3, 5, 7, 9])?, EliasFano::build(&[2, 3, 5, 7])?);
    /// let (mut lists, mut out) = ([odd.cursor(), primes.cursor()], [0; 8]);
    /// assert_eq!(Cursor::checked_union(&mut lists, 2, &mut out), Ok(&[2, 3, 5, 7, 9][..]));
    /// # Ok::<(), bitm_proved::BuildError>(())
    /// ```
    pub fn checked_union<'b>(lists: &mut [Self], from: u64, out: &'b mut [u64]) -> Result<&'b [u64], WrongTables> {
        Self::merge(bitm_cursors_union, lists, from, out)
    }

    fn merge<'b>(call: Merge, lists: &mut [Self], from: u64, out: &'b mut [u64]) -> Result<&'b [u64], WrongTables> {
        let (at, len) = (lists.as_mut_ptr().cast::<bitm_cursor>(), lists.len());
        let (to, room, mut written) = (out.as_mut_ptr(), out.len(), 0);
        // SAFETY: two mutable slices, so nothing overlaps them; each cursor is its struct of C; and room for one number.
        match unsafe { call(at, len, from, to, room, &mut written) } {
            OK => Ok(&out[..written as usize]),
            _ => Err(WrongTables),
        }
    }
}
