//! The two pointer readers that the files of `etherparse` use.

/// Reads two bytes at ptr as a big-endian number.
///
/// # Safety
/// ptr must point to at least two readable bytes.
pub(crate) unsafe fn get_unchecked_be_u16(ptr: *const u8) -> u16 {
    u16::from_be_bytes([*ptr, *ptr.add(1)])
}

/// Reads four bytes at ptr as a big-endian number.
///
/// # Safety
/// ptr must point to at least four readable bytes.
pub(crate) unsafe fn get_unchecked_be_u32(ptr: *const u8) -> u32 {
    u32::from_be_bytes([*ptr, *ptr.add(1), *ptr.add(2), *ptr.add(3)])
}
