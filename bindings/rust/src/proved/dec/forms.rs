// Made by bindings/rust/translate.py from `crates/cobs/src/dec/forms.rt`: change that file, and run it again.
//! `decode_with_sentinel`, whose caller chooses the sentinel, and the calls that decode into a new vector.

use crate::access::Access;
use crate::proved::dec::run::{kept_len, message_len};
use crate::proved::dec::unbuffered::START;
use crate::proved::error::DecodeError;
use crate::proved::slices::position_or_len;

/// Decodes a source that contains no sentinel, and returns the message's length in bytes.
fn decode_blocks(source: &[u8], dest: &mut [u8], sentinel: u8) -> Result<usize, DecodeError> {
    let (len, whole) = kept_len(source, sentinel);
    let mut progress = START;
    if progress.take_blocks(dest, source.part(..len), sentinel) < len {
        return Err(DecodeError::TargetBufTooSmall);
    }
    message_len(progress.written, whole)
}

/// Decodes the frame at the front of the source, and returns the message's length in bytes. The frame was encoded with
/// `sentinel`, which may be any byte.
///
/// The frame ends at the source's first sentinel, or at the end of the source. Each byte of the frame is XORed with the
/// sentinel before it is decoded. After the call, `dest` begins with the message, and every byte of `dest` after the
/// message is unchanged. Unlike [`decode`](crate::decode), this function reads a leading sentinel as an empty message.
/// It then returns 0.
///
/// # Errors
///
/// - `EmptyFrame` if the source is empty. Then `dest` is unchanged.
/// - `TargetBufTooSmall` if the message is longer than `dest`, or if the frame breaks off and the output of the frame's
///   whole blocks is longer than `dest`. In both cases `dest` is filled with the first bytes of the message or of this
///   output.
/// - `InvalidFrame` if the frame breaks off inside a block and the output of the frame's whole blocks fits `dest`. Then
///   `dest` begins with this output, `decoded_bytes` is the length of the output, and every byte of `dest` after the
///   output is unchanged. If the block before the broken block isn't full, the output ends with the zero that joins the
///   two blocks.
///
/// Cheshire and Baker's paper describes how frames are encoded with a sentinel other than 0. The results for broken
/// frames are a choice of this library.
#[inline]
pub fn decode_with_sentinel(
    source: &[u8],
    dest: &mut [u8],
    sentinel: u8,
) -> Result<usize, DecodeError> {
    if source.is_empty() {
        return Err(DecodeError::EmptyFrame);
    }
    let end = position_or_len(source, sentinel);
    decode_blocks(source.part(..end), dest, sentinel)
}
