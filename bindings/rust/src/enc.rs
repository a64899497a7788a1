//! Defines the functions that encode messages. These functions have the signatures of the crate `cobs`, and call the
//! proved functions.

mod encoder;

use crate::proved;

pub use crate::proved::{DestBufTooSmallError, EncoderState, PushResult, UnbufferedEncoder};
pub use encoder::CobsEncoder;

impl Default for UnbufferedEncoder {
    /// Calls [`new`](Self::new).
    fn default() -> Self {
        Self::new()
    }
}

/// Returns the length, or panics if the output doesn't fit. `Result::expect` would also write the error, and so it would
/// add the code that formats an error to every program.
#[inline]
#[track_caller]
fn fitting(encoded: Result<usize, DestBufTooSmallError>) -> usize {
    match encoded {
        Ok(len) => len,
        Err(_) => panic!("the output fits `dest`"),
    }
}

/// Writes the frame of `source`, without sentinels, to the front of `dest`, and returns the frame's length in bytes.
/// The bytes after the frame stay as they are.
///
/// ```
/// let mut dest = [0xAA; 8];
/// assert_eq!(jcobs::encode(b"a\0b", &mut dest), 4);
/// assert_eq!(dest, *b"\x02a\x02b\xAA\xAA\xAA\xAA");
/// ```
///
/// # Panics
///
/// Panics if the frame doesn't fit `dest`. A `dest` of
/// [`max_encoding_length(source.len())`](crate::max_encoding_length) bytes is always long enough.
#[inline]
#[track_caller]
pub fn encode(source: &[u8], dest: &mut [u8]) -> usize {
    fitting(try_encode(source, dest))
}

/// Writes the frame of `source`, without sentinels, to the front of `dest`, and returns the frame's length in bytes.
/// The bytes after the frame stay as they are.
///
/// ```
/// use jcobs::{try_encode, DestBufTooSmallError};
///
/// let mut dest = [0; 3];
/// assert_eq!(try_encode(b"hi", &mut dest), Ok(3));
/// assert_eq!(try_encode(b"hello", &mut dest), Err(DestBufTooSmallError));
/// assert_eq!(dest, *b"\x03hi");
/// ```
///
/// # Errors
///
/// Returns [`DestBufTooSmallError`] if and only if the frame doesn't fit `dest`. In that case `dest` stays as it was.
#[inline]
pub fn try_encode(source: &[u8], dest: &mut [u8]) -> Result<usize, DestBufTooSmallError> {
    proved::try_encode(source, dest)
}

/// Writes a zero, the frame of `source`, and another zero to the front of `dest`, and returns their total length in
/// bytes. The bytes after the second zero stay as they are.
///
/// ```
/// let mut dest = [0xAA; 6];
/// assert_eq!(jcobs::encode_including_sentinels(b"hi", &mut dest), 5);
/// assert_eq!(dest, *b"\0\x03hi\0\xAA");
/// ```
///
/// # Panics
///
/// Panics if the frame with its two zeros doesn't fit `dest`. A `dest` of
/// [`max_encoding_length(source.len())`](crate::max_encoding_length) plus 2 bytes is always long enough.
#[inline]
#[track_caller]
pub fn encode_including_sentinels(source: &[u8], dest: &mut [u8]) -> usize {
    fitting(try_encode_including_sentinels(source, dest))
}

/// Writes a zero, the frame of `source`, and another zero to the front of `dest`, and returns their total length in
/// bytes. The bytes after the second zero stay as they are.
///
/// ```
/// let mut dest = [0xAA; 4];
/// assert!(jcobs::try_encode_including_sentinels(b"hi", &mut dest).is_err());
/// assert_eq!(dest, [0xAA; 4]);
/// assert_eq!(jcobs::try_encode_including_sentinels(b"h", &mut dest), Ok(4));
/// assert_eq!(dest, *b"\0\x02h\0");
/// ```
///
/// # Errors
///
/// Returns [`DestBufTooSmallError`] if and only if the frame with its two zeros doesn't fit `dest`. In that case `dest`
/// stays as it was.
#[inline]
pub fn try_encode_including_sentinels(
    source: &[u8],
    dest: &mut [u8],
) -> Result<usize, DestBufTooSmallError> {
    proved::try_encode_including_sentinels(source, dest)
}

/// Encodes `source` with the given sentinel, writes the frame to the front of `dest`, and returns the frame's length in
/// bytes. This frame is the frame for the sentinel 0, with each byte XORed with `sentinel`. The bytes of `dest` after
/// the frame stay as they are.
///
/// ```
/// let mut dest = [0; 4];
/// let n = jcobs::encode_with_sentinel(b"a\0b", &mut dest, b'\n');
/// assert!(!dest[..n].contains(&b'\n'));
/// ```
///
/// # Panics
///
/// Panics if the frame doesn't fit `dest`. A `dest` of
/// [`max_encoding_length(source.len())`](crate::max_encoding_length) bytes is always long enough.
#[inline]
#[track_caller]
pub fn encode_with_sentinel(source: &[u8], dest: &mut [u8], sentinel: u8) -> usize {
    fitting(try_encode_with_sentinel(source, dest, sentinel))
}

/// Encodes a message in its own buffer, and returns the frame's length in bytes. Before the call, the message is in the
/// `len` bytes from index `start` of `buffer` on, behind at least
/// [`max_encoding_overhead(len)`](crate::max_encoding_overhead) bytes for codes. After the call, `buffer` begins with
/// the frame, and the bytes after the frame are as they were. The crate `cobs` doesn't have this call.
///
/// ```
/// let mut buffer = *b"\0hello..";
/// assert_eq!(jcobs::encode_in_place(&mut buffer, 1, 5), 6);
/// assert_eq!(&buffer, b"\x06hello..");
/// ```
///
/// # Panics
///
/// Panics if `start` is below [`max_encoding_overhead(len)`](crate::max_encoding_overhead), or if the message isn't
/// within `buffer`.
#[track_caller]
pub fn encode_in_place(buffer: &mut [u8], start: usize, len: usize) -> usize {
    assert!(
        crate::max_encoding_overhead(len) <= start,
        "`start` leaves room for the codes of `len` bytes"
    );
    assert!(
        buffer.get(start..).is_some_and(|rest| len <= rest.len()),
        "the message is within `buffer`"
    );
    proved::encode_in_place(buffer, start, len)
}

/// Encodes `source` with the given sentinel, writes the frame to the front of `dest`, and returns the frame's length in
/// bytes. Unlike [`encode_with_sentinel`], this call returns an error if the frame doesn't fit `dest`. The crate `cobs`
/// doesn't have this call.
///
/// ```
/// let mut dest = [0; 2];
/// assert_eq!(jcobs::try_encode_with_sentinel(b"a", &mut dest, 1), Ok(2));
/// assert!(jcobs::try_encode_with_sentinel(b"ab", &mut dest, 1).is_err());
/// ```
///
/// # Errors
///
/// Returns [`DestBufTooSmallError`] if and only if the frame doesn't fit `dest`. In that case `dest` stays as it was.
#[inline]
pub fn try_encode_with_sentinel(
    source: &[u8],
    dest: &mut [u8],
    sentinel: u8,
) -> Result<usize, DestBufTooSmallError> {
    proved::try_encode_with_sentinel(source, dest, sentinel)
}

/// Returns a vector of zeros. The vector has room for any frame of a message that is as long as `source`, and for
/// `more` bytes after the frame.
#[cfg(feature = "alloc")]
fn room_for(source: &[u8], more: usize) -> alloc::vec::Vec<u8> {
    alloc::vec![0; crate::max_encoding_length(source.len()) + more]
}

/// Returns the frame of `source`, without sentinels.
///
/// ```
/// assert_eq!(jcobs::encode_vec(b""), [1]);
/// assert_eq!(jcobs::encode_vec(b"a\0b"), b"\x02a\x02b");
/// ```
#[cfg(feature = "alloc")]
#[must_use]
pub fn encode_vec(source: &[u8]) -> alloc::vec::Vec<u8> {
    let mut encoded = room_for(source, 0);
    let length = encode(source, &mut encoded);
    encoded.truncate(length);
    encoded
}

/// Returns a vector that consists of a zero, the frame of `source`, and another zero.
///
/// ```
/// assert_eq!(jcobs::encode_vec_including_sentinels(b"hi"), b"\0\x03hi\0");
/// ```
#[cfg(feature = "alloc")]
#[must_use]
pub fn encode_vec_including_sentinels(source: &[u8]) -> alloc::vec::Vec<u8> {
    let mut encoded = room_for(source, 2);
    let length = encode_including_sentinels(source, &mut encoded);
    encoded.truncate(length);
    encoded
}

/// Returns the frame that [`encode_with_sentinel`] would write for `source` and the given sentinel.
///
/// ```
/// assert_eq!(jcobs::encode_vec_with_sentinel(b"\xFF\0", 0xFF), [0xFD, 0x00, 0xFE]);
/// ```
#[cfg(feature = "alloc")]
#[must_use]
pub fn encode_vec_with_sentinel(source: &[u8], sentinel: u8) -> alloc::vec::Vec<u8> {
    let mut encoded = room_for(source, 0);
    let length = encode_with_sentinel(source, &mut encoded, sentinel);
    encoded.truncate(length);
    encoded
}
