// Made by bindings/rust/translate.py from `crates/cobs/src/enc/sentinel.rt`: change that file, and run it again.
//! Functions that encode with a sentinel other than 0, and functions that write a sentinel before and after the frame.

use crate::access::Access;
use crate::proved::enc::try_encode;
use crate::proved::error::DestBufTooSmallError;
use crate::proved::slices::xor_bytes;

/// Writes the encoded frame of `source` to the front of `dest`, as [`encode_with_sentinel`](crate::encode_with_sentinel) does, if the frame fits
/// `dest`. Returns the frame's length in bytes.
///
/// # Errors
/// Returns `DestBufTooSmallError` if and only if the frame is longer than `dest`. Then no byte of `dest` has changed.
#[inline]
pub fn try_encode_with_sentinel(
    source: &[u8],
    dest: &mut [u8],
    sentinel: u8,
) -> Result<usize, DestBufTooSmallError> {
    let written = try_encode(source, dest)?;
    xor_bytes(dest.part_mut(..written), sentinel);
    Ok(written)
}

/// Writes a 0, the encoded frame of `source` and another 0 to the front of `dest`, as [`encode_including_sentinels`](crate::encode_including_sentinels)
/// does, if all of them fit. Returns how many bytes it wrote.
///
/// # Errors
/// Returns `DestBufTooSmallError` if and only if the frame and both sentinels together are longer than `dest`. Then no
/// byte of `dest` has changed.
pub fn try_encode_including_sentinels(
    source: &[u8],
    dest: &mut [u8],
) -> Result<usize, DestBufTooSmallError> {
    // Both sentinels and the shortest frame need three bytes.
    if dest.len() < 3 {
        return Err(DestBufTooSmallError);
    }
    let last = dest.len() - 1;
    let written = try_encode(source, dest.part_mut(1..last))?;
    dest.put(0, 0);
    dest.put(written + 1, 0);
    Ok(written + 2)
}
