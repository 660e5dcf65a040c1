//! Memory that may be refused, and numbers seen as others of the same size.
use crate::errors::NoMemory;
use alloc::alloc::{alloc_zeroed, Layout};
use alloc::boxed::Box;
use alloc::vec::Vec;
use core::slice;

// The tables are of numbers of 64 bits for the archive, and of `usize` in the original's interface.
const _: () = assert!(size_of::<usize>() == 8, "the archive is for 64-bit processors");

/// Types of numbers for which zero bytes are a value.
///
/// # Safety
/// They are.
pub(crate) unsafe trait Number: Copy {}

// SAFETY: zero bytes are the number 0.
unsafe impl Number for u64 {}
// SAFETY: zero bytes are the number 0.
unsafe impl Number for u32 {}
// SAFETY: zero bytes are the number 0.
unsafe impl Number for u8 {}
// SAFETY: zero bytes are the number 0.
unsafe impl Number for usize {}

/// `len` zeros; on Linux many of them lie in huge pages where the system has these.
pub(crate) fn zeroed<T: Number>(len: usize) -> Result<Vec<T>, NoMemory> {
    let refused = NoMemory { bytes: len.saturating_mul(size_of::<T>()) };
    let layout = Layout::array::<T>(len).map_err(|_| refused)?;
    if layout.size() == 0 {
        return Ok(Vec::new());
    }
    // SAFETY: the layout has a size.
    let at = unsafe { alloc_zeroed(layout) }.cast::<T>();
    if at.is_null() {
        return Err(refused);
    }
    #[cfg(all(feature = "std", target_os = "linux"))]
    super::huge::request(at.cast(), layout.size());
    // SAFETY: the allocator of vectors returned `len` zeros of this layout.
    Ok(unsafe { Vec::from_raw_parts(at, len, len) })
}

/// `len` words equal to `value`.
pub(crate) fn filled(value: u64, len: usize) -> Result<Box<[u64]>, NoMemory> {
    let mut words = zeroed(len)?;
    if value != 0 {
        words.fill(value);
    }
    Ok(words.into_boxed_slice())
}

/// A copy of numbers.
pub(crate) fn copied<T: Number>(numbers: &[T]) -> Result<Vec<T>, NoMemory> {
    let mut copy = zeroed(numbers.len())?;
    copy.copy_from_slice(numbers);
    Ok(copy)
}

/// An empty vector with room for `len` items.
pub(crate) fn with_room<T>(len: usize) -> Result<Vec<T>, NoMemory> {
    let mut list = Vec::new();
    list.try_reserve_exact(len).map_err(|_| NoMemory { bytes: len.saturating_mul(size_of::<T>()) })?;
    Ok(list)
}

/// A vector of one item.
pub(crate) fn one<T>(item: T) -> Result<Vec<T>, NoMemory> {
    let mut list = with_room(1)?;
    list.push(item);
    Ok(list)
}

/// The bytes of words one after another, and where each begins and the last one ends.
pub(crate) fn one_after_another<W: AsRef<[u8]>>(words: &[W]) -> Result<(Vec<u8>, Vec<u64>), NoMemory> {
    let mut starts = zeroed::<u64>(words.len() + 1)?;
    let mut all = 0;
    for (end, word) in starts[1..].iter_mut().zip(words) {
        all += word.as_ref().len();
        *end = all as u64;
    }
    let mut bytes = zeroed::<u8>(all)?;
    for (word, span) in words.iter().zip(starts.windows(2)) {
        bytes[span[0] as usize..span[1] as usize].copy_from_slice(word.as_ref());
    }
    Ok((bytes, starts))
}

/// The numbers as `u64`.
#[inline(always)]
pub(crate) fn as_u64(numbers: &[usize]) -> &[u64] {
    // SAFETY: `usize` has 64 bits.
    unsafe { slice::from_raw_parts(numbers.as_ptr().cast(), numbers.len()) }
}

/// The numbers as `u64`.
#[inline(always)]
pub(crate) fn as_u64_mut(numbers: &mut [usize]) -> &mut [u64] {
    // SAFETY: `usize` has 64 bits.
    unsafe { slice::from_raw_parts_mut(numbers.as_mut_ptr().cast(), numbers.len()) }
}

/// Words as twice as many numbers of 32 bits.
pub(crate) fn halves(words: &[u64]) -> &[u32] {
    // SAFETY: each word is two of them, which begin at a multiple of 4.
    unsafe { slice::from_raw_parts(words.as_ptr().cast(), 2 * words.len()) }
}

/// Words as twice as many numbers of 32 bits.
pub(crate) fn halves_mut(words: &mut [u64]) -> &mut [u32] {
    // SAFETY: each word is two of them, which begin at a multiple of 4.
    unsafe { slice::from_raw_parts_mut(words.as_mut_ptr().cast(), 2 * words.len()) }
}

/// The bytes of words, as a file has them.
///
/// ```
/// assert_eq!(bitm_proved::bytes_of(&[1u64, 0]).len(), 16);
/// ```
pub fn bytes_of(words: &[u64]) -> &[u8] {
    // SAFETY: each byte of a number is a number of 8 bits, and a byte stands anywhere.
    unsafe { slice::from_raw_parts(words.as_ptr().cast(), size_of_val(words)) }
}

/// The bytes of words.
#[cfg(feature = "std")]
pub(crate) fn bytes_of_mut(words: &mut [u64]) -> &mut [u8] {
    // SAFETY: as for `bytes_of`, and any eight bytes are a number.
    unsafe { slice::from_raw_parts_mut(words.as_mut_ptr().cast(), size_of_val(words)) }
}

/// The whole words of bytes, as a file has them, copied: the bytes may begin anywhere.
///
/// # Errors
/// `NoMemory` where memory is refused.
///
/// ```
/// use bitm_proved::{bytes_of, words_from_bytes};
/// assert_eq!(words_from_bytes(&bytes_of(&[7, 9])[..15])?, [7]);
/// # Ok::<(), bitm_proved::NoMemory>(())
/// ```
pub fn words_from_bytes(bytes: &[u8]) -> Result<Vec<u64>, NoMemory> {
    let mut words = zeroed(bytes.len() / 8)?;
    for (word, bytes) in words.iter_mut().zip(bytes.chunks_exact(8)) {
        let mut all = [0; 8];
        all.copy_from_slice(bytes);
        *word = u64::from_ne_bytes(all);
    }
    Ok(words)
}

/// The whole words of bytes that begin at a multiple of 8.
pub(crate) fn words_of(bytes: &[u8]) -> Option<&[u64]> {
    if bytes.len() < 8 {
        return Some(&[]);
    }
    let at = bytes.as_ptr().cast::<u64>();
    // SAFETY: aligned, inside the bytes, and any eight bytes are a number.
    at.is_aligned().then(|| unsafe { slice::from_raw_parts(at, bytes.len() / 8) })
}

/// Prefetches item `index` of a slice; any number will do.
#[inline(always)]
pub(crate) fn prefetch<T>(items: &[T], index: usize) {
    #[cfg(target_arch = "x86_64")]
    // SAFETY: an address that is not there is no fault of this instruction.
    unsafe {
        use core::arch::x86_64::{_mm_prefetch, _MM_HINT_T0};
        _mm_prefetch::<_MM_HINT_T0>(items.as_ptr().wrapping_add(index).cast());
    }
    #[cfg(not(target_arch = "x86_64"))]
    let _ = (items, index);
}
