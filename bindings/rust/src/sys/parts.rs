//! Ranks of words and tables that a user may have written: the struct for the archive is made anew for each.
use crate::errors::WrongTables;
use crate::ffi::words::{bitm_index, bitm_index_rank, bitm_samples};
use crate::sys::query;
use crate::sys::view::NO_SAMPLES;
use core::mem::offset_of;

/// The address of a slice and its length. In a loop they are kept and stored as one, where there is a register for it.
#[cfg(target_arch = "x86_64")]
type Pair = core::arch::x86_64::__m128i;

#[cfg(target_arch = "x86_64")]
#[inline(always)]
fn pair(of: &[u64]) -> Pair {
    // SAFETY: each x86-64 processor has SSE2.
    unsafe { core::arch::x86_64::_mm_set_epi64x(of.len() as i64, of.as_ptr() as i64) }
}

#[cfg(not(target_arch = "x86_64"))]
#[repr(C)]
struct Pair(*const u64, usize);

#[cfg(not(target_arch = "x86_64"))]
#[inline(always)]
fn pair(of: &[u64]) -> Pair {
    Pair(of.as_ptr(), of.len())
}

/// The fields of `bitm_index`, in its order.
#[repr(C)]
struct Parts {
    words: Pair,
    upper: Pair,
    lower: Pair,
    bits_len: u64,
    samples: [bitm_samples; 2],
    reserved: [u64; 2],
}

const _: () = {
    assert!(size_of::<Parts>() >= size_of::<bitm_index>() && align_of::<Parts>() >= align_of::<bitm_index>());
    assert!(offset_of!(Parts, words) == offset_of!(bitm_index, words) && offset_of!(bitm_index, words_len) == 8);
    assert!(offset_of!(Parts, upper) == offset_of!(bitm_index, upper) && offset_of!(bitm_index, upper_len) == 24);
    assert!(offset_of!(Parts, lower) == offset_of!(bitm_index, lower) && offset_of!(bitm_index, lower_len) == 40);
    assert!(offset_of!(Parts, bits_len) == offset_of!(bitm_index, bits_len));
    assert!(offset_of!(Parts, samples) == offset_of!(bitm_index, ones));
    assert!(offset_of!(Parts, samples) + size_of::<bitm_samples>() == offset_of!(bitm_index, zeros));
    assert!(offset_of!(Parts, reserved) == offset_of!(bitm_index, reserved));
};

/// A rank of all bits of words with tables, whose lengths may be any.
#[inline(always)]
pub(crate) fn rank_of(
    words: &[u64],
    (upper, lower): (&[u64], &[u64]),
    one: bool,
    position: usize,
) -> Result<Option<usize>, WrongTables> {
    let parts = Parts {
        words: pair(words),
        upper: pair(upper),
        lower: pair(lower),
        bits_len: (words.len() as u64).wrapping_mul(64),
        samples: [NO_SAMPLES; 2],
        reserved: [0; 2],
    };
    let index = (&raw const parts).cast::<bitm_index>();
    // SAFETY: the fields of the struct, of borrowed slices, and room for the number that the call writes where it
    // returns OK.
    let found = unsafe { query(|out| bitm_index_rank(index, one, position as u64, out)) };
    Ok(found?.map(|it| it as usize))
}
