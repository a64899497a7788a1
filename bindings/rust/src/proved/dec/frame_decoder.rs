// Made by bindings/rust/translate.py from `crates/cobs/src/dec/frame_decoder.rt`: change that file, and run it again.
//! The traits of the streaming decoders. `FrameDecoder` is for decoding; the modules `stream` and `framed` use it.
//! `WriteBuffer` is for writing to the decoder's buffer.

use crate::proved::error::DecodeError;

/// How a piece of a stream ended.
///
/// ```
/// use jcobs::{CobsDecoderHeapless, FrameDecoder, PieceEnd};
///
/// let mut decoder = CobsDecoderHeapless::<1>::new();
/// let end = decoder.feed_piece(&[2, 7, 0]);
/// assert_eq!(end, Some((PieceEnd::Message(1), 3)));
/// ```
#[derive(Debug, Clone, Copy, PartialEq, Eq, Hash)]
#[cfg_attr(feature = "serde", derive(serde::Serialize, serde::Deserialize))]
#[cfg_attr(feature = "defmt", derive(defmt::Format))]
pub enum PieceEnd {
    /// The piece is a frame whose message has this many bytes. The message is at the front of the decoder's buffer.
    Message(usize),

    /// The piece breaks off inside a block. The piece decodes to this many bytes, including those of the broken block.
    Broken(usize),

    /// The piece decodes to more bytes than the decoder's buffer has room for.
    TooLong,
}

impl PieceEnd {
    /// Returns how a piece ended. `returned` is the result of `feed` for the zero after the piece. If no piece had
    /// begun before the zero, the function returns `None`.
    ///
    /// ```
    /// use jcobs::{PieceEnd, UnbufferedDecoder};
    ///
    /// let mut decoder = UnbufferedDecoder::new();
    /// let mut buffer = [0; 4];
    /// assert_eq!(decoder.push(&mut buffer, &[3, 7]), Ok(None));
    /// let end = PieceEnd::reported(decoder.feed(&mut buffer, 0));
    /// assert_eq!(end, Some(PieceEnd::Broken(1)));
    /// ```
    #[inline(always)]
    #[must_use]
    pub fn reported(returned: Result<Option<usize>, DecodeError>) -> Option<PieceEnd> {
        match returned {
            Ok(None) | Err(DecodeError::EmptyFrame) => None,
            Ok(Some(n)) => Some(PieceEnd::Message(n)),
            Err(DecodeError::InvalidFrame { decoded_bytes }) => {
                Some(PieceEnd::Broken(decoded_bytes))
            }
            Err(DecodeError::TargetBufTooSmall) => Some(PieceEnd::TooLong),
        }
    }
}

/// A decoder that decodes a stream byte by byte or piece by piece. The decoder owns or borrows the buffer for its
/// output.
///
/// ```
/// use jcobs::{CobsDecoderHeapless, FrameDecoder, PieceEnd};
///
/// let mut decoder = CobsDecoderHeapless::<4>::new();
/// let stream = [3, 7, 0, 2, 9, 0];
/// assert_eq!(decoder.feed_piece(&stream), Some((PieceEnd::Broken(1), 3)));
/// ```
pub trait FrameDecoder {
    /// Decodes the next byte of the stream. The results and errors are those of
    /// [`CobsDecoder::feed`](crate::CobsDecoder::feed). As long as the output of the piece fits the buffer, the byte
    /// changes the decoder's state in the same way as it would change a [`DecoderState`](crate::DecoderState).
    ///
    /// ```
    /// use jcobs::{CobsDecoderHeapless, FrameDecoder};
    ///
    /// let mut decoder = CobsDecoderHeapless::<1>::new();
    /// assert_eq!(decoder.feed_byte(1), Ok(None));
    /// assert_eq!(decoder.feed_byte(0), Ok(Some(0)));
    /// ```
    fn feed_byte(&mut self, byte: u8) -> Result<Option<usize>, DecodeError>;

    /// Decodes the next bytes of the stream, and stops after the first zero that ends a piece.
    ///
    /// - Returns `None` if no piece ended in these bytes. In this case all of these bytes were decoded.
    /// - Returns `Some((end, count))` if the zero at index `count - 1` ended a piece; `end` says how the piece ended.
    ///   The bytes after that zero had no effect. So the caller continues with the byte at index `count`, even if the
    ///   piece is too long for the buffer.
    ///
    /// The bytes of the buffer after the piece's output are unchanged.
    ///
    /// An implementation doesn't have to define this method: the provided method feeds one byte after another. The
    /// decoders of this library have their own `feed_piece`, which searches for the end of the piece and copies slices.
    ///
    /// ```
    /// use jcobs::{CobsDecoderHeapless, FrameDecoder, PieceEnd};
    ///
    /// let mut decoder = CobsDecoderHeapless::<1>::new();
    /// assert_eq!(decoder.feed_piece(&[2]), None);
    /// let end = decoder.feed_piece(&[7, 0, 1]);
    /// assert_eq!(end, Some((PieceEnd::Message(1), 2)));
    /// ```
    fn feed_piece(&mut self, stream: &[u8]) -> Option<(PieceEnd, usize)> {
        for (i, byte) in stream.iter().enumerate() {
            let returned = self.feed_byte(*byte);
            if *byte == 0 {
                if let Some(end) = PieceEnd::reported(returned) {
                    return Some((end, i + 1));
                }
            }
        }
        None
    }

    /// Returns the whole buffer.
    ///
    /// ```
    /// use jcobs::{CobsDecoderHeapless, FrameDecoder};
    ///
    /// assert_eq!(CobsDecoderHeapless::<2>::new().buffer(), [0, 0].as_slice());
    /// ```
    fn buffer(&self) -> &[u8];
}
