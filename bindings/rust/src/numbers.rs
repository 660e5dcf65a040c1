//! The numbers of a sequence: queries that panic where its parts are wrong, and iterators.
use crate::answers::{answers, by_view};
use crate::errors::{wrong_tables, ListError, StoredError};
use crate::sys::owned::Sequence;
use crate::sys::sequence::SequenceView;
use alloc::vec::Vec;
use core::iter::FusedIterator;
use core::ops::Range;

answers! { SequenceView, Sequence;
    /// The number at an index; `None` exactly where there is none. One proved call.
    ///
    /// ```
    /// let primes = bitm_proved::EliasFano::build(&[2, 3, 5, 7])?;
    /// assert_eq!((primes.get(0), primes.get(3), primes.get(4)), (Some(2), Some(7), None));
    /// # Ok::<(), bitm_proved::BuildError>(())
    /// ```
    pub fn get(&self, index: usize) -> Option<u64> = checked_get;

    /// The successor: the least index whose number is at least `value`; `None` exactly where each number is
    /// less. One proved call.
    ///
    /// ```
    /// let primes = bitm_proved::EliasFano::build(&[2, 3, 5, 7])?;
    /// assert_eq!((primes.first_at_least(0), primes.first_at_least(4)), (Some(0), Some(2))); // of 2 and of 5
    /// assert_eq!((primes.first_at_least(7), primes.first_at_least(8)), (Some(3), None));
    /// # Ok::<(), bitm_proved::BuildError>(())
    /// ```
    pub fn first_at_least(&self, value: u64) -> Option<usize> = checked_first_at_least;

    /// The predecessor: the greatest index whose number is at most `value`; `None` exactly where each number is
    /// greater. One proved call.
    ///
    /// ```
    /// let primes = bitm_proved::EliasFano::build(&[2, 3, 5, 7])?;
    /// assert_eq!((primes.last_at_most(4), primes.last_at_most(9)), (Some(1), Some(3))); // of 3 and of 7
    /// assert_eq!((primes.last_at_most(2), primes.last_at_most(1)), (Some(0), None));
    /// # Ok::<(), bitm_proved::BuildError>(())
    /// ```
    pub fn last_at_most(&self, value: u64) -> Option<usize> = checked_last_at_most;

    /// Whether a number is there. One proved call.
    ///
    /// ```
    /// let primes = bitm_proved::EliasFano::build(&[2, 3, 5, 7])?;
    /// assert!(primes.contains(5) && !primes.contains(4) && !primes.contains(8));
    /// # Ok::<(), bitm_proved::BuildError>(())
    /// ```
    pub fn contains(&self, value: u64) -> bool = checked_contains;
}

macro_rules! iterates {
    ($kind:ty, $self:ident, $view:expr, $($generic:tt)*) => {
        impl $($generic)* $kind {
            /// The numbers, from either end.
            ///
            /// ```
            /// let primes = bitm_proved::EliasFano::build(&[2, 3, 5, 7])?;
            /// assert!(primes.iter().eq([2, 3, 5, 7]) && primes.iter().rev().eq([7, 5, 3, 2]));
            /// assert_eq!((primes.iter().len(), primes.iter().sum::<u64>()), (4, 17));
            /// # Ok::<(), bitm_proved::BuildError>(())
            /// ```
            pub fn iter(&$self) -> Numbers<'_> {
                Numbers::new(*$view, 0..$view.len())
            }

            /// The numbers whose indexes are in a range. Panics where it ends past the end.
            ///
            /// ```
            /// let primes = bitm_proved::EliasFano::build(&[2, 3, 5, 7])?;
            /// assert!(primes.range(1..3).eq([3, 5]) && primes.range(2..4).rev().eq([7, 5]));
            /// assert_eq!(primes.range(4..4).next(), None);
            /// # Ok::<(), bitm_proved::BuildError>(())
            /// ```
            #[track_caller]
            pub fn range(&$self, range: Range<usize>) -> Numbers<'_> {
                let len = $view.len();
                assert!(range.end <= len, "the range {range:?} ends past {len} numbers");
                Numbers::new(*$view, range)
            }

            /// As `range`; `None` where it ends past the end.
            ///
            /// ```
            /// let primes = bitm_proved::EliasFano::build(&[2, 3, 5, 7])?;
            /// assert!(primes.try_range(1..4).is_some_and(|it| it.eq([3, 5, 7])));
            /// assert!(primes.try_range(1..5).is_none());
            /// # Ok::<(), bitm_proved::BuildError>(())
            /// ```
            pub fn try_range(&$self, range: Range<usize>) -> Option<Numbers<'_>> {
                (range.end <= $view.len()).then(|| Numbers::new(*$view, range))
            }

            /// The numbers that are at least `value`, from either end.
            ///
            /// ```
            /// let primes = bitm_proved::EliasFano::build(&[2, 3, 5, 7])?;
            /// assert!(primes.iter_from(4).eq([5, 7]) && primes.iter_from(3).rev().eq([7, 5, 3]));
            /// assert_eq!(primes.iter_from(8).next(), None);
            /// # Ok::<(), bitm_proved::BuildError>(())
            /// ```
            #[track_caller]
            pub fn iter_from(&$self, value: u64) -> Numbers<'_> {
                let (len, first) = ($view.len(), $self.first_at_least(value));
                Numbers::new(*$view, first.unwrap_or(len)..len)
            }
        }
    };
}
iterates!(SequenceView<'_>, self, self,);
iterates!(Sequence<O>, self, self.view(), <O>);

by_view! { Sequence;
    /// How many numbers there are.
    ///
    /// ```
    /// assert_eq!(bitm_proved::EliasFano::build(&[2, 3, 3, 7])?.len(), 4);
    /// # Ok::<(), bitm_proved::BuildError>(())
    /// ```
    pub fn len(&self) -> usize;

    /// Whether there are none.
    ///
    /// ```
    /// use bitm_proved::EliasFano;
    /// assert!(EliasFano::build(&[])?.is_empty() && !EliasFano::build(&[0])?.is_empty());
    /// # Ok::<(), bitm_proved::BuildError>(())
    /// ```
    pub fn is_empty(&self) -> bool;

    /// Whether the parts form a sequence; and of a block whether it is as it was written, by the checksum of each
    /// section. A file of format version 2 has no checksum of its numbers: there `check` finds only what does not fit
    /// together, and other numbers may pass.
    ///
    /// ```
    /// use bitm_proved::{EliasFano, Sequence};
    /// let file = EliasFano::build(&[2, 3, 5, 7])?.to_stored()?;
    /// assert!(Sequence::from_words(&file)?.check());
    /// # Ok::<(), Box<dyn std::error::Error>>(())
    /// ```
    pub fn check(&self) -> bool;

    /// The numbers at a list of indexes, up to the first past the end; an error where the parts turn out to be wrong.
    ///
    /// ```
    /// let primes = bitm_proved::EliasFano::build(&[2, 3, 5, 7])?;
    /// assert_eq!(primes.get_list(&[3, 0, 4, 1], &mut [0; 4]), Ok(&[7, 2][..]));
    /// # Ok::<(), bitm_proved::BuildError>(())
    /// ```
    pub fn get_list<'b>(&self, indexes: &[usize], out: &'b mut [u64]) -> Result<&'b [u64], ListError>;

    /// The successors of a list of values; returns how many have none, written as `NO_ANSWER`.
    ///
    /// ```
    /// use bitm_proved::{EliasFano, NO_ANSWER};
    /// let (primes, mut out) = (EliasFano::build(&[2, 3, 5, 7])?, [0; 2]);
    /// assert_eq!((primes.first_at_least_list(&[4, 8], &mut out), out), (Ok(1), [2, NO_ANSWER]));
    /// # Ok::<(), bitm_proved::BuildError>(())
    /// ```
    pub fn first_at_least_list(&self, values: &[u64], out: &mut [usize]) -> Result<usize, ListError>;

    /// The predecessors of a list of values; returns how many have none, written as `NO_ANSWER`.
    ///
    /// ```
    /// use bitm_proved::{EliasFano, NO_ANSWER};
    /// let (primes, mut out) = (EliasFano::build(&[2, 3, 5, 7])?, [0; 2]);
    /// assert_eq!((primes.last_at_most_list(&[4, 1], &mut out), out), (Ok(1), [1, NO_ANSWER]));
    /// # Ok::<(), bitm_proved::BuildError>(())
    /// ```
    pub fn last_at_most_list(&self, values: &[u64], out: &mut [usize]) -> Result<usize, ListError>;

    /// Which of a list of values are there: 1 where one is, else 0.
    ///
    /// ```
    /// let (primes, mut out) = (bitm_proved::EliasFano::build(&[2, 3, 5, 7])?, [9; 2]);
    /// assert_eq!((primes.contains_list(&[4, 5], &mut out), out), (Ok(()), [0, 1]));
    /// # Ok::<(), bitm_proved::BuildError>(())
    /// ```
    pub fn contains_list(&self, values: &[u64], out: &mut [u64]) -> Result<(), ListError>;
}

impl<O> Sequence<O> {
    /// The words of a file of this sequence, which are a block.
    ///
    /// # Errors
    /// `NoMemory` where memory is refused; `WrongTables` where the sequence was read from a file of format version 2,
    /// and its parts do not fit together.
    ///
    /// ```
    /// use bitm_proved::{EliasFano, Sequence};
    /// let file: Vec<u64> = EliasFano::build(&[2, 3, 5, 7])?.to_stored()?;
    /// assert!(Sequence::from_words(&file)?.iter().eq([2, 3, 5, 7]));
    /// # Ok::<(), Box<dyn std::error::Error>>(())
    /// ```
    pub fn to_stored(&self) -> Result<Vec<u64>, StoredError> {
        self.view().to_words()
    }
}

impl<'a, O> IntoIterator for &'a Sequence<O> {
    type Item = u64;
    type IntoIter = Numbers<'a>;
    fn into_iter(self) -> Numbers<'a> {
        self.iter()
    }
}

impl<'a> IntoIterator for &'a SequenceView<'_> {
    type Item = u64;
    type IntoIter = Numbers<'a>;
    fn into_iter(self) -> Numbers<'a> {
        self.iter()
    }
}

/// How many numbers are read by one call.
const BLOCK: usize = 16;

/// Numbers that were read, from an index on.
#[derive(Clone, Debug)]
struct Block {
    from: usize,
    len: usize,
    items: [u64; BLOCK],
}

impl Block {
    const NONE: Block = Block { from: 0, len: 0, items: [0; BLOCK] };

    #[inline(always)]
    fn at(&self, index: usize) -> Option<u64> {
        let items = &self.items[..self.len];
        items.get(index.wrapping_sub(self.from)).copied()
    }

    #[cold]
    #[track_caller]
    fn read(&mut self, view: &SequenceView<'_>, range: Range<usize>) {
        self.from = range.start;
        self.len = view.items(range.start, &mut self.items[..range.len()]).len();
        if self.len < range.len() {
            wrong_tables()
        }
    }
}

/// Numbers of a sequence, from either end, and from a value on. They are read in blocks by the proved call; what is
/// kept of them is tested, not proved.
///
/// ```
/// use bitm_proved::{EliasFano, Numbers};
/// let primes = EliasFano::build(&[2, 3, 5, 7, 11, 13])?;
/// assert!(primes.try_range(0..7).is_none());
/// assert!(primes.iter().rev().eq([13, 11, 7, 5, 3, 2]) && primes.range(1..3).eq([3, 5]));
/// let mut from: Numbers<'_> = primes.iter_from(6);
/// assert_eq!((from.index(), from.len()), (3, 3));
/// assert_eq!((from.next(), from.next_geq(12), from.next()), (Some(7), Some(13), None));
/// assert_eq!((&primes).into_iter().sum::<u64>(), 41);
/// # Ok::<(), bitm_proved::BuildError>(())
/// ```
#[derive(Clone, Debug)]
pub struct Numbers<'a> {
    view: SequenceView<'a>,
    range: Range<usize>,
    front: Block,
    back: Block,
}

impl<'a> Numbers<'a> {
    fn new(view: SequenceView<'a>, range: Range<usize>) -> Self {
        Numbers { view, range, front: Block::NONE, back: Block::NONE }
    }

    /// The index of the number that is next from the start.
    ///
    /// ```
    /// let primes = bitm_proved::EliasFano::build(&[2, 3, 5, 7])?;
    /// let mut numbers = primes.range(1..4);
    /// assert_eq!((numbers.index(), numbers.next(), numbers.index()), (1, Some(3), 2));
    /// assert_eq!((numbers.next_back(), numbers.index()), (Some(7), 2));
    /// # Ok::<(), bitm_proved::BuildError>(())
    /// ```
    pub fn index(&self) -> usize {
        self.range.start
    }

    /// Moves on to the first number that is still to come and is at least `value`, and takes it.
    ///
    /// ```
    /// let primes = bitm_proved::EliasFano::build(&[2, 3, 5, 7])?;
    /// let mut numbers = primes.iter();
    /// assert_eq!((numbers.next_geq(3), numbers.next_geq(3)), (Some(3), Some(5))); // 3 is taken
    /// assert_eq!((numbers.next_geq(8), numbers.next()), (None, None));
    /// # Ok::<(), bitm_proved::BuildError>(())
    /// ```
    #[track_caller]
    pub fn next_geq(&mut self, value: u64) -> Option<u64> {
        if self.front.at(self.range.start).is_some() {
            let read = &self.front.items[..self.front.len];
            let within = read.partition_point(|it| *it < value);
            if within < read.len() {
                self.range.start = self.range.start.max(self.front.from + within);
                return self.next();
            }
        }
        let first = self.view.first_at_least(value).unwrap_or(self.range.end);
        self.range.start = self.range.start.max(first).min(self.range.end);
        self.next()
    }
}

impl Iterator for Numbers<'_> {
    type Item = u64;

    #[inline]
    #[track_caller]
    fn next(&mut self) -> Option<u64> {
        if self.range.is_empty() {
            return None;
        }
        let index = self.range.start;
        if self.front.at(index).is_none() {
            let end = self.range.end.min(index + BLOCK);
            self.front.read(&self.view, index..end);
        }
        self.range.start += 1;
        self.front.at(index)
    }

    #[inline]
    fn nth(&mut self, n: usize) -> Option<u64> {
        self.range.start = self.range.start.saturating_add(n).min(self.range.end);
        self.next()
    }

    #[inline]
    fn size_hint(&self) -> (usize, Option<usize>) {
        self.range.size_hint()
    }
}

impl DoubleEndedIterator for Numbers<'_> {
    #[inline]
    #[track_caller]
    fn next_back(&mut self) -> Option<u64> {
        if self.range.is_empty() {
            return None;
        }
        let index = self.range.end - 1;
        if self.back.at(index).is_none() {
            let from = self.range.end.saturating_sub(BLOCK).max(self.range.start);
            self.back.read(&self.view, from..self.range.end);
        }
        self.range.end = index;
        self.back.at(index)
    }
}

impl ExactSizeIterator for Numbers<'_> {}
impl FusedIterator for Numbers<'_> {}
