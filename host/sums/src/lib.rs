//! The library's one's complement sum alone, which is no call of the product: to be counted, and held against others.

#![warn(missing_docs)]

// size_t is usize on the one machine that the library is for
#[cfg(not(all(target_arch = "x86_64", target_os = "linux")))]
compile_error!("the library is for x86-64 Linux");

extern "C" {
    fn sums_ones_sum(bytes: *const u8, length: usize) -> u16;
}

/// The one's complement sum of the 16-bit words of any bytes, each with its higher byte first; an odd last byte is the higher one of
/// its word.
///
/// ```
/// // the example of RFC 1071
/// assert_eq!(sums::ones_sum(&[0x00, 0x01, 0xF2, 0x03, 0xF4, 0xF5, 0xF6, 0xF7]), 0xDDF2);
/// ```
pub fn ones_sum(bytes: &[u8]) -> u16 {
    // SAFETY: the bytes are lent for reading for the call, by a pointer that is never null; any are taken.
    unsafe { sums_ones_sum(bytes.as_ptr(), bytes.len()) }
}
