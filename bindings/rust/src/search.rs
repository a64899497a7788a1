//! Searches for a byte: with the feature `fast` by the crate `memchr`, and without it byte by byte.

#[cfg(feature = "fast")]
pub(crate) use memchr::memchr;

/// Returns the index of the first byte of `bytes` that equals `byte`, if there is one.
#[cfg(not(feature = "fast"))]
#[inline]
pub(crate) fn memchr(byte: u8, bytes: &[u8]) -> Option<usize> {
    bytes.iter().position(|each| *each == byte)
}
