// Made by bindings/rust/translate.py from `crates/cobs/src/dec/whole.rt`: change that file, and run it again.
//! Decoding a whole frame into a separate buffer.

use crate::proved::dec::frame_decoder::PieceEnd;
use crate::proved::dec::unbuffered::START;
use crate::proved::error::{DecodeError, DecodeReport};

/// Decodes the first piece of the source into `dest`. Returns how the piece ended, and how many bytes of the source were
/// consumed: the leading zeros, the piece, and the zero after the piece if there is one. Returns `None` if the source
/// has no piece.
///
/// This function decodes as [`decode`] does, but it returns the number of consumed bytes even if the piece is broken or
/// too long. So a program can go on with the next frame of a buffer that has several.
pub fn decode_first(source: &[u8], dest: &mut [u8]) -> Option<(PieceEnd, usize)> {
    let mut progress = START;
    match progress.feed_piece(dest, source) {
        Some(ended) => Some(ended),
        // No zero ends the piece, so the end of the source ends it.
        None => {
            let end = PieceEnd::reported(progress.end(dest.len()))?;
            Some((end, source.len()))
        }
    }
}

/// Decodes the first frame of the source into `dest`, and returns how many bytes of the source were consumed and how
/// many bytes the message has.
///
/// Leading zeros are skipped. The frame ends at the next zero, or at the source's end if there is no other zero. The
/// bytes after the zero that ends the frame have no effect. The first `frame_size` bytes of `dest` are the message, and
/// the other bytes of `dest` are unchanged. `parsed_size` counts the skipped zeros, the frame, and the zero after the
/// frame if there is one.
///
/// # Errors
///
/// - `EmptyFrame` if the source is empty, and `InvalidFrame` with `decoded_bytes` 0 if the source has only zeros. In
///   both cases `dest` is unchanged.
/// - `TargetBufTooSmall` if the frame decodes to more bytes than `dest` has. `dest` is then filled with the first
///   decoded bytes.
/// - `InvalidFrame` if the frame breaks off inside a block. `dest` then begins with the decoded bytes, including those
///   of the broken block. `decoded_bytes` is the number of these bytes. The other bytes of `dest` are unchanged.
///
/// The format is that of Cheshire and Baker's paper. The results for a broken frame are a choice of this library.
pub fn decode(source: &[u8], dest: &mut [u8]) -> Result<DecodeReport, DecodeError> {
    if source.is_empty() {
        return Err(DecodeError::EmptyFrame);
    }
    let Some((end, parsed_size)) = decode_first(source, dest) else {
        return Err(DecodeError::InvalidFrame { decoded_bytes: 0 });
    };
    match end {
        PieceEnd::Message(frame_size) => Ok(DecodeReport {
            parsed_size,
            frame_size,
        }),
        PieceEnd::Broken(decoded_bytes) => Err(DecodeError::InvalidFrame { decoded_bytes }),
        PieceEnd::TooLong => Err(DecodeError::TargetBufTooSmall),
    }
}
