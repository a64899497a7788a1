// Made by bindings/rust/translate.py from `crates/cobs/src/dec/unbuffered.rt`: change that file, and run it again.
//! A streaming decoder whose caller passes the buffer to each call. The three other streaming decoders use this
//! decoder.

use crate::access::Access;
use crate::proved::dec::frame_decoder::PieceEnd;
use crate::proved::error::{DecodeError, DecodeReport, PushError};
use crate::proved::slices::position_or_len;

/// Decodes a stream of frames, each ended by a zero, into a buffer that the caller passes to each call.
///
/// The `feed` of this decoder returns the same results as that of [`CobsDecoder`](crate::CobsDecoder). An `UnbufferedDecoder` has no buffer
/// of its own, only a few numbers. So a program can use the buffer for other data between two pieces. A decoder can be
/// in a struct together with its buffer, or be passed to code in another language.
///
/// A piece is open from its first byte to the zero that ends it. While a piece is open, the caller must pass the same
/// buffer to each call, and must not change the buffer between two calls. If the caller passes another buffer, of any
/// length, each call is still safe: no call panics or returns a message that is longer than the buffer. But the results
/// for that piece, and the bytes of the buffer, are then unspecified.
///
/// ```
/// use jcobs::UnbufferedDecoder;
///
/// let mut decoder = UnbufferedDecoder::new();
/// let mut buffer = [0; 64];
/// let report = decoder.push(&mut buffer, b"\x06hello\0")?;
/// assert_eq!(report.map(|report| report.frame_size()), Some(5));
/// assert!(buffer.starts_with(b"hello"));
/// # Ok::<(), Box<dyn std::error::Error>>(())
/// ```
///
/// A decoder consists of four numbers, and has the layout of a C struct. All four numbers are 0 before a piece begins.
/// Every call is safe, whatever the numbers are.
// No number says whether a piece has begun: the step for a nonzero byte doesn't depend on that. `missing` says whether
// that byte is a code. `joint` says whether the output has a zero before the block of this code. The first code of a
// piece is decoded like a code after a full block: the output has no zero before the first block.
#[repr(C)]
#[derive(Debug, Clone, Copy, PartialEq, Eq, Hash)]
pub struct UnbufferedDecoder {
    /// How many bytes of the piece's output have been written to the buffer.
    pub written: usize,
    /// How many bytes of the open block are still missing.
    pub missing: u8,
    /// Not 0 if a piece has begun and the code of its last block so far is less than 255. If another block follows this
    /// block, the output has a zero between the bytes of the two blocks.
    pub joint: u8,
    /// Not 0 if the piece's output is too long for the buffer.
    pub too_long: u8,
}

/// The state of an idle decoder: no piece has begun.
pub(crate) const START: UnbufferedDecoder = UnbufferedDecoder {
    written: 0,
    missing: 0,
    joint: 0,
    too_long: 0,
};

impl UnbufferedDecoder {
    /// Makes an idle decoder. The buffer that you pass to the decoder may have any length, even 0.
    ///
    /// ```
    /// use jcobs::UnbufferedDecoder;
    ///
    /// let mut decoder = UnbufferedDecoder::new();
    /// let report = decoder.push(&mut [], &[1, 0])?;
    /// assert_eq!(report.map(|report| report.frame_size()), Some(0));
    /// # Ok::<(), Box<dyn std::error::Error>>(())
    /// ```
    #[must_use]
    pub const fn new() -> Self {
        START
    }

    /// Returns true if no piece is open, that is, if the next nonzero byte begins a new piece.
    ///
    /// ```
    /// use jcobs::UnbufferedDecoder;
    ///
    /// let mut decoder = UnbufferedDecoder::new();
    /// assert!(decoder.is_idle());
    /// assert_eq!(decoder.push(&mut [0; 4], &[2]), Ok(None));
    /// assert!(!decoder.is_idle());
    /// ```
    #[inline(always)]
    #[must_use]
    pub const fn is_idle(&self) -> bool {
        self.written == 0 && self.missing == 0 && self.joint == 0 && self.too_long == 0
    }

    /// Makes the decoder idle, so that the next nonzero byte begins a new piece.
    ///
    /// ```
    /// use jcobs::UnbufferedDecoder;
    ///
    /// let mut decoder = UnbufferedDecoder::new();
    /// assert_eq!(decoder.push(&mut [0; 4], &[9, 9]), Ok(None));
    /// decoder.reset();
    /// assert!(decoder.is_idle());
    /// ```
    pub fn reset(&mut self) {
        *self = UnbufferedDecoder::new();
    }

    /// Decodes the next byte of the stream, with `dest` as the buffer. The results and errors are those of
    /// [`CobsDecoder::feed`](crate::CobsDecoder::feed). As long as the output of the piece fits the buffer, the byte
    /// changes the decoder's state in the same way as it would change a [`DecoderState`](crate::DecoderState).
    ///
    /// ```
    /// use jcobs::UnbufferedDecoder;
    ///
    /// let mut buffer = [0; 2];
    /// let mut decoder = UnbufferedDecoder::new();
    /// assert_eq!(decoder.feed(&mut buffer, 2), Ok(None));
    /// assert_eq!(decoder.feed(&mut buffer, 7), Ok(None));
    /// assert_eq!(decoder.feed(&mut buffer, 0), Ok(Some(1)));
    /// assert_eq!(buffer, [7, 0]);
    /// ```
    #[inline(always)]
    pub fn feed(&mut self, dest: &mut [u8], byte: u8) -> Result<Option<usize>, DecodeError> {
        if byte == 0 {
            return self.end(dest.len());
        }
        if self.too_long == 0 && self.take_byte(dest, byte) {
            return Ok(None);
        }
        self.too_long = 1;
        Err(DecodeError::TargetBufTooSmall)
    }

    /// Decodes the next bytes of the stream, with `dest` as the buffer, and stops after the first byte for which `feed`
    /// returns a message or an error. The error says how many bytes were consumed.
    ///
    /// ```
    /// use jcobs::UnbufferedDecoder;
    ///
    /// let mut buffer = [0; 2];
    /// let mut decoder = UnbufferedDecoder::new();
    /// let rejected = decoder.push(&mut buffer, &[4, 7, 8, 9, 0]);
    /// assert_eq!(rejected.map_err(|rejected| rejected.parsed_size), Err(4));
    /// assert_eq!(buffer, [7, 8]);
    /// ```
    pub fn push(
        &mut self,
        dest: &mut [u8],
        bytes: &[u8],
    ) -> Result<Option<DecodeReport>, PushError> {
        let mut at = 0;
        while at < bytes.len() {
            at += self.take_run(dest, bytes.part(at..), 0);
            // The byte at index `at` is a zero, or a byte of a piece that is too long.
            if at < bytes.len() {
                let parsed_size = at + 1;
                match self.feed(dest, bytes.byte(at)) {
                    Ok(None) => at = parsed_size,
                    Ok(Some(frame_size)) => {
                        return Ok(Some(DecodeReport {
                            parsed_size,
                            frame_size,
                        }));
                    }
                    Err(error) => return Err(PushError { error, parsed_size }),
                }
            }
        }
        Ok(None)
    }

    /// Decodes the next bytes of the stream, with `dest` as the buffer, and stops after the first zero that ends a
    /// piece. The results are those of [`FrameDecoder::feed_piece`](crate::FrameDecoder::feed_piece).
    ///
    /// ```
    /// use jcobs::{PieceEnd, UnbufferedDecoder};
    ///
    /// let mut decoder = UnbufferedDecoder::new();
    /// let mut buffer = [0; 4];
    /// let end = decoder.feed_piece(&mut buffer, b"\x06hello\0\x03hi\0");
    /// assert_eq!(end, Some((PieceEnd::TooLong, 7)));
    /// ```
    #[inline]
    pub fn feed_piece(&mut self, dest: &mut [u8], bytes: &[u8]) -> Option<(PieceEnd, usize)> {
        self.feed_piece_with_sentinel(dest, bytes, 0)
    }

    /// Decodes the next bytes of a stream whose frames were encoded with `sentinel`, with `dest` as the buffer, and
    /// stops after the first sentinel that ends a piece. The results are those of [`feed_piece`](Self::feed_piece),
    /// with this sentinel in place of 0.
    ///
    /// ```
    /// use jcobs::{PieceEnd, UnbufferedDecoder};
    ///
    /// let mut decoder = UnbufferedDecoder::new();
    /// let mut buffer = [0; 4];
    /// let frame = [2 ^ 10, 7 ^ 10, 1 ^ 10, 10];
    /// assert_eq!(decoder.feed_piece_with_sentinel(&mut buffer, &frame[..3], 10), None);
    /// let end = decoder.feed_piece_with_sentinel(&mut buffer, &frame[3..], 10);
    /// assert_eq!(end, Some((PieceEnd::Message(2), 1)));
    /// assert!(buffer.starts_with(&[7, 0]));
    /// ```
    #[inline(always)]
    pub fn feed_piece_with_sentinel(
        &mut self,
        dest: &mut [u8],
        bytes: &[u8],
        sentinel: u8,
    ) -> Option<(PieceEnd, usize)> {
        let start = self.zeros_outside(bytes, sentinel);
        let taken = start + self.take_run(dest, bytes.part(start..), sentinel);
        if taken == bytes.len() {
            return None;
        }
        let next = taken + 1;
        if bytes.byte(taken) == sentinel {
            let end = PieceEnd::reported(self.end(dest.len()))?;
            return Some((end, next));
        }
        // The buffer has no room for the output of this byte, so only the sentinel that ends the piece still matters.
        let end = next + position_or_len(bytes.part(next..), sentinel);
        if end == bytes.len() {
            self.too_long = 1;
            return None;
        }
        *self = START;
        Some((PieceEnd::TooLong, end + 1))
    }

    /// Returns the number of sentinels at the front of `bytes` if no piece has begun, because these sentinels then end
    /// no piece. If a piece has begun, the function returns 0. Some serial lines carry many sentinels while no frame is
    /// sent.
    #[inline(always)]
    fn zeros_outside(&self, bytes: &[u8], sentinel: u8) -> usize {
        if !self.is_idle() {
            return 0;
        }
        for i in 0..bytes.len() {
            if bytes.byte(i) != sentinel {
                return i;
            }
        }
        bytes.len()
    }
}
