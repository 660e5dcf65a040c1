//! Few bits of bytes: the original's, by a pointer, and the proved calls on slices.
use crate::ffi::words::*;

/// The bits from `first_bit` to the end of the eight bytes that begin with its byte. Tested, not proved.
///
/// # Safety
/// The eight bytes from `first_bit / 8` on can be read.
///
/// ```
/// let bytes = [0b1010_0000u8, 1, 0, 0, 0, 0, 0, 0];
/// // SAFETY: there are eight bytes.
/// assert_eq!(unsafe { bitm_proved::get_bits57(bytes.as_ptr(), 5) }, 0b1101);
/// ```
#[inline(always)]
pub unsafe fn get_bits57(ptr: *const u8, first_bit: usize) -> u64 {
    // SAFETY: the caller's duty.
    let window = unsafe { ptr.add(first_bit / 8).cast::<[u8; 8]>().read() };
    u64::from_le_bytes(window) >> (first_bit % 8)
}

/// Adds the 1 bits of `value` to those bits. Tested, not proved.
///
/// # Safety
/// The eight bytes from `first_bit / 8` on can be read and written.
///
/// ```
/// let mut bytes = [0u8; 8];
/// // SAFETY: there are eight bytes.
/// unsafe { bitm_proved::init_bits57(bytes.as_mut_ptr(), 7, 0b11) };
/// assert_eq!(bytes[..2], [0x80, 1]);
/// ```
#[inline(always)]
pub unsafe fn init_bits57(ptr: *mut u8, first_bit: usize, value: u64) {
    // SAFETY: the caller's duty.
    unsafe { set_bits57(ptr, first_bit, value, 0) }
}

/// First clears those bits at which `len_mask` has 1 bits, then adds the 1 bits of `value`. Tested, not proved.
///
/// # Safety
/// The eight bytes from `first_bit / 8` on can be read and written.
///
/// ```
/// let mut bytes = [0xFFu8; 8];
/// // SAFETY: there are eight bytes.
/// unsafe { bitm_proved::set_bits57(bytes.as_mut_ptr(), 6, 0b01, 0b11) };
/// assert_eq!(bytes[..2], [0x7F, 0xFF]);
/// ```
#[inline(always)]
pub unsafe fn set_bits57(ptr: *mut u8, first_bit: usize, value: u64, len_mask: u64) {
    let shift = first_bit % 8;
    // SAFETY: the caller's duty.
    let at = unsafe { ptr.add(first_bit / 8).cast::<[u8; 8]>() };
    // SAFETY: the caller's duty.
    let kept = u64::from_le_bytes(unsafe { at.read() }) & !(len_mask << shift);
    // SAFETY: the caller's duty.
    unsafe { at.write((kept | value << shift).to_le_bytes()) };
}

/// As [`get_bits57`], of four bytes. Tested, not proved.
///
/// # Safety
/// The four bytes from `first_bit / 8` on can be read.
///
/// ```
/// let bytes = [0b1010_0000u8, 1, 0, 0];
/// // SAFETY: there are four bytes.
/// assert_eq!(unsafe { bitm_proved::get_bits25(bytes.as_ptr(), 5) }, 0b1101);
/// ```
#[inline(always)]
pub unsafe fn get_bits25(ptr: *const u8, first_bit: usize) -> u32 {
    // SAFETY: the caller's duty.
    let window = unsafe { ptr.add(first_bit / 8).cast::<[u8; 4]>().read() };
    u32::from_le_bytes(window) >> (first_bit % 8)
}

/// As [`init_bits57`], of four bytes. Tested, not proved.
///
/// # Safety
/// The four bytes from `first_bit / 8` on can be read and written.
///
/// ```
/// let mut bytes = [0u8; 4];
/// // SAFETY: there are four bytes.
/// unsafe { bitm_proved::init_bits25(bytes.as_mut_ptr(), 7, 0b11) };
/// assert_eq!(bytes[..2], [0x80, 1]);
/// ```
#[inline(always)]
pub unsafe fn init_bits25(ptr: *mut u8, first_bit: usize, value: u32) {
    // SAFETY: the caller's duty.
    unsafe { set_bits25(ptr, first_bit, value, 0) }
}

/// As [`set_bits57`], of four bytes. Tested, not proved.
///
/// # Safety
/// The four bytes from `first_bit / 8` on can be read and written.
///
/// ```
/// let mut bytes = [0xFFu8; 4];
/// // SAFETY: there are four bytes.
/// unsafe { bitm_proved::set_bits25(bytes.as_mut_ptr(), 6, 0b01, 0b11) };
/// assert_eq!(bytes[..2], [0x7F, 0xFF]);
/// ```
#[inline(always)]
pub unsafe fn set_bits25(ptr: *mut u8, first_bit: usize, value: u32, len_mask: u32) {
    let shift = first_bit % 8;
    // SAFETY: the caller's duty.
    let at = unsafe { ptr.add(first_bit / 8).cast::<[u8; 4]>() };
    // SAFETY: the caller's duty.
    let kept = u32::from_le_bytes(unsafe { at.read() }) & !(len_mask << shift);
    // SAFETY: the caller's duty.
    unsafe { at.write((kept | value << shift).to_le_bytes()) };
}

/// The window of a bit: the bits from it to the end of the eight bytes that begin with its byte; `None` exactly where
/// they are not all inside. Proved.
///
/// ```
/// assert_eq!(bitm_proved::words::bytes_get57(&[0xA0, 1, 0, 0, 0, 0, 0, 0], 5), Some(13));
/// ```
pub fn bytes_get57(bytes: &[u8], first_bit: usize) -> Option<u64> {
    let mut out = 0;
    // SAFETY: a slice, and room for one number.
    let status = unsafe { bitm_bytes_get57(bytes.as_ptr(), bytes.len(), first_bit as u64, &mut out) };
    (status == BITM_OK).then_some(out)
}

/// Adds 1 bits to the window of a bit, as for `bytes_get57`. Proved.
///
/// ```
/// let mut bytes = [0; 8];
/// assert_eq!((bitm_proved::words::bytes_init57(&mut bytes, 7, 3), bytes[1]), (Some(()), 1));
/// ```
pub fn bytes_init57(bytes: &mut [u8], first_bit: usize, value: u64) -> Option<()> {
    let (at, len) = (bytes.as_mut_ptr(), bytes.len());
    // SAFETY: a mutable slice.
    let status = unsafe { bitm_bytes_init57(at, len, first_bit as u64, value) };
    (status == BITM_OK).then_some(())
}

/// First clears the bits of a mask in the window of a bit, as for `bytes_get57`, then adds 1 bits. Proved.
///
/// ```
/// let mut bytes = [255; 8];
/// assert_eq!((bitm_proved::words::bytes_set57(&mut bytes, 6, 1, 3), bytes[0]), (Some(()), 127));
/// ```
pub fn bytes_set57(bytes: &mut [u8], first_bit: usize, value: u64, mask: u64) -> Option<()> {
    let (at, len) = (bytes.as_mut_ptr(), bytes.len());
    // SAFETY: a mutable slice.
    let status = unsafe { bitm_bytes_set57(at, len, first_bit as u64, value, mask) };
    (status == BITM_OK).then_some(())
}

/// The window of a bit: the bits from it to the end of the four bytes that begin with its byte; `None` exactly where
/// they are not all inside. Proved.
///
/// ```
/// assert_eq!(bitm_proved::words::bytes_get25(&[0xA0, 1, 0, 0, 0, 0, 0, 0], 5), Some(13));
/// ```
pub fn bytes_get25(bytes: &[u8], first_bit: usize) -> Option<u32> {
    let mut out = 0;
    // SAFETY: a slice, and room for one number.
    let status = unsafe { bitm_bytes_get25(bytes.as_ptr(), bytes.len(), first_bit as u64, &mut out) };
    (status == BITM_OK).then_some(out)
}

/// Adds 1 bits to the window of a bit, as for `bytes_get25`. Proved.
///
/// ```
/// let mut bytes = [0; 8];
/// assert_eq!((bitm_proved::words::bytes_init25(&mut bytes, 7, 3), bytes[1]), (Some(()), 1));
/// ```
pub fn bytes_init25(bytes: &mut [u8], first_bit: usize, value: u32) -> Option<()> {
    let (at, len) = (bytes.as_mut_ptr(), bytes.len());
    // SAFETY: a mutable slice.
    let status = unsafe { bitm_bytes_init25(at, len, first_bit as u64, value) };
    (status == BITM_OK).then_some(())
}

/// First clears the bits of a mask in the window of a bit, as for `bytes_get25`, then adds 1 bits. Proved.
///
/// ```
/// let mut bytes = [255; 8];
/// assert_eq!((bitm_proved::words::bytes_set25(&mut bytes, 6, 1, 3), bytes[0]), (Some(()), 127));
/// ```
pub fn bytes_set25(bytes: &mut [u8], first_bit: usize, value: u32, mask: u32) -> Option<()> {
    let (at, len) = (bytes.as_mut_ptr(), bytes.len());
    // SAFETY: a mutable slice.
    let status = unsafe { bitm_bytes_set25(at, len, first_bit as u64, value, mask) };
    (status == BITM_OK).then_some(())
}
