//! The numbers that two sequences have both.
use crate::numbers::Numbers;
use core::iter::FusedIterator;

/// The numbers that two sequences have both, in increasing order, each once. Tested, not proved.
///
/// ```
/// use bitm_proved::{intersection, EliasFano};
/// let (odd, primes) = (EliasFano::build(&[1, 3, 5, 7, 9, 11])?, EliasFano::build(&[2, 3, 5, 5, 7, 11])?);
/// assert!(intersection(odd.iter(), primes.iter_from(4)).eq([5, 7, 11]));
/// # Ok::<(), bitm_proved::BuildError>(())
/// ```
pub fn intersection<'a, 'b>(a: Numbers<'a>, b: Numbers<'b>) -> Intersection<'a, 'b> {
    let least = Some(0);
    Intersection { a, b, least }
}

/// The numbers that two sequences have both: of [`intersection`]. Tested, not proved.
///
/// ```
/// use bitm_proved::{intersection, EliasFano, Intersection};
/// let odd = EliasFano::build(&[1, 3, 5])?;
/// let mut both: Intersection<'_, '_> = intersection(odd.iter(), odd.iter_from(4));
/// assert_eq!((both.next(), both.next()), (Some(5), None));
/// # Ok::<(), bitm_proved::BuildError>(())
/// ```
#[derive(Clone, Debug)]
pub struct Intersection<'a, 'b> {
    a: Numbers<'a>,
    b: Numbers<'b>,
    /// The next number is no less.
    least: Option<u64>,
}

impl Iterator for Intersection<'_, '_> {
    type Item = u64;

    fn next(&mut self) -> Option<u64> {
        let least = self.least.take()?;
        let mut a = self.a.next_geq(least)?;
        let mut b = self.b.next_geq(a)?;
        while a != b {
            if a < b {
                a = self.a.next_geq(b)?;
            } else {
                b = self.b.next_geq(a)?;
            }
        }
        self.least = a.checked_add(1);
        Some(a)
    }
}

impl FusedIterator for Intersection<'_, '_> {}
