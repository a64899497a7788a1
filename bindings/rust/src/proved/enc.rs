// Made by bindings/rust/translate.py from `crates/cobs/src/enc.rt`: change that file, and run it again.
//! Encoding: the calls that turn messages into frames.

pub(crate) mod append;
pub(crate) mod in_place;
pub(crate) mod sentinel;
pub(crate) mod state;
pub(crate) mod unbuffered;

use crate::proved::error::DestBufTooSmallError;
pub use in_place::encode_in_place;
pub use sentinel::{try_encode_including_sentinels, try_encode_with_sentinel};
pub use state::{EncoderState, PushResult};
pub use unbuffered::UnbufferedEncoder;

/// Writes the encoded frame of `source` to the front of `dest`, and returns the frame's length in bytes.
///
/// The frame consists of blocks, as in Cheshire and Baker's paper. A message that ends in a run of nonzero bytes has
/// two frames if the length of this run is a positive multiple of 254. The longer frame is the shorter one followed by
/// the byte `1`. This function writes the shorter frame; this is the library's own choice. No byte of the frame is the
/// sentinel 0, and no sentinel is written before or after the frame. The bytes of `dest` after the frame stay
/// unchanged.
///
/// Precondition: the frame fits `dest`. The frame always fits if the length of `dest` is at least
/// [`max_encoding_length(source.len())`](crate::max_encoding_length). If you don't know whether the frame fits, call
/// [`try_encode`], which returns an error if the frame doesn't fit.
#[inline]
pub fn encode(source: &[u8], dest: &mut [u8]) -> usize {
    let mut encoder = UnbufferedEncoder::new();
    encoder.append(dest, source);
    encoder.close(dest)
}

/// Writes the encoded frame of `source` to the front of `dest`, as [`encode`] does, if the frame fits `dest`. Returns
/// the frame's length in bytes.
///
/// # Errors
/// Returns `DestBufTooSmallError` if and only if the frame is longer than `dest`. Then no byte of `dest` has changed.
#[inline]
pub fn try_encode(source: &[u8], dest: &mut [u8]) -> Result<usize, DestBufTooSmallError> {
    if !UnbufferedEncoder::new().has_room(source, dest.len()) {
        return Err(DestBufTooSmallError);
    }
    Ok(encode(source, dest))
}
