// Made by bindings/rust/translate.py from `crates/cobs/src/stream.rt`: change that file, and run it again.
//! Calls for whole streams: `decode_stream` decodes all pieces that end in the next bytes of a stream, and
//! `encode_frames` encodes several messages.
//!
//! A stream is cut at its zeros. A piece consists of the bytes between two neighbouring zeros, or before the first
//! zero. It has at least one byte. There are three outcomes: the piece is a frame, it breaks off inside a block, or it
//! decodes to more bytes than the buffer has room for. Each piece is decoded separately, so damage to one piece has no
//! effect after the next zero. (The rule that a zero ends each frame is from Cheshire and Baker's paper. The outcomes
//! of pieces that are broken or too long are a choice of this library.)

use crate::memory::AllocError;
use crate::proved::dec::{FrameDecoder, PieceEnd};
#[cfg(feature = "alloc")]
use alloc::vec::Vec;

/// The outcome of a piece of a stream. A piece consists of one or more nonzero bytes, and a zero ends the piece.
///
/// ```
/// # #[cfg(feature = "alloc")] {
/// use jcobs::{CobsDecoderHeapless, FrameOutcome, decode_stream};
///
/// let mut decoder = CobsDecoderHeapless::<4>::new();
/// let found = decode_stream(&mut decoder, &[2, 7, 0])?;
/// let message = FrameOutcome::Message([7].to_vec());
/// assert_eq!(found.first(), Some(&message));
/// # }
/// # Ok::<(), Box<dyn std::error::Error>>(())
/// ```
#[cfg(feature = "alloc")]
#[derive(Debug, Clone, PartialEq, Eq, Hash)]
#[cfg_attr(feature = "serde", derive(serde::Serialize, serde::Deserialize))]
#[cfg_attr(feature = "defmt", derive(defmt::Format))]
pub enum FrameOutcome {
    /// The piece is a frame, and this vector contains the message.
    Message(Vec<u8>),

    /// The piece breaks off inside a block. The piece decodes to this many bytes, including those of the broken block.
    Broken(usize),

    /// The piece decodes to more bytes than the decoder's buffer has room for.
    TooLong,
}

/// Returns the outcome of a piece. `end` says how the piece ended, and `buffer` begins with the piece's output.
#[cfg(feature = "alloc")]
fn frame_outcome(end: PieceEnd, buffer: &[u8]) -> Result<FrameOutcome, AllocError> {
    match end {
        PieceEnd::Message(n) => Ok(FrameOutcome::Message(crate::memory::copied(&buffer[..n])?)),
        PieceEnd::Broken(count) => Ok(FrameOutcome::Broken(count)),
        PieceEnd::TooLong => Ok(FrameOutcome::TooLong),
    }
}

/// Decodes the next bytes of a stream, and returns one outcome for each piece that ends in these bytes, in order.
///
/// The first of these pieces may have begun in an earlier call. The decoder keeps its state, so the next call continues
/// a piece that hasn't ended. So a caller may cut a stream into chunks anywhere, and decode one chunk per call. The
/// outcomes of all calls, in order, are those of the whole stream. A zero at the front of a stream, or after another
/// zero, ends no piece.
///
/// The caller may write to the decoder's buffer while a piece is open, but the bytes of this piece's message are then
/// unspecified. The length of the message, and all other outcomes, aren't affected.
///
/// # Errors
/// `AllocError` if there isn't enough memory for an outcome. Then the outcomes of this call are lost, and the decoder
/// is idle, so the next nonzero byte begins a new piece. Only messages and the list of outcomes need memory. So if no
/// piece ends, the result is `Ok`.
///
/// ```
/// # #[cfg(feature = "alloc")] {
/// use jcobs::{CobsDecoder, FrameOutcome, decode_stream};
///
/// let mut buffer = [0; 4];
/// let mut decoder = CobsDecoder::new(&mut buffer);
/// let found = decode_stream(&mut decoder, b"\x03hi\0\x03a\0\x06hello\0\x02")?;
/// assert_eq!(found.len(), 3);
/// assert_eq!(found[0], FrameOutcome::Message(b"hi".to_vec()));
/// assert_eq!(found[1], FrameOutcome::Broken(1));
/// assert_eq!(found[2], FrameOutcome::TooLong);
/// # }
/// # Ok::<(), Box<dyn std::error::Error>>(())
/// ```
#[cfg(feature = "alloc")]
pub fn decode_stream<D: FrameDecoder>(
    decoder: &mut D,
    bytes: &[u8],
) -> Result<Vec<FrameOutcome>, AllocError> {
    let mut outcomes = Vec::new();
    let mut at = 0;
    while let Some((end, count)) = decoder.feed_piece(&bytes[at..]) {
        crate::memory::push(&mut outcomes, frame_outcome(end, decoder.buffer())?)?;
        at += count;
    }
    Ok(outcomes)
}
