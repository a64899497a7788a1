//! Defines the functions that decode frames. These functions have the signatures of the crate `cobs`, and call the
//! proved functions.

mod decoder;

use crate::proved;

pub use crate::proved::{
    DecodeError, DecodeReport, DecodeResult, DecoderState, FrameDecoder, FrameKind, PieceEnd,
    PushError, ReadFault, UnbufferedDecoder,
};
#[cfg(feature = "alloc")]
pub use decoder::CobsDecoderOwned;
pub use decoder::{CobsDecoder, CobsDecoderHeapless};

impl Default for UnbufferedDecoder {
    /// Calls [`new`](Self::new).
    fn default() -> Self {
        Self::new()
    }
}

/// Returns the [`DecodeError`] that the [`PushError`] contains. So in a function that returns a `DecodeError`, a push
/// to any of the decoders can be followed by `?`:
///
/// ```
/// use jcobs::{DecodeError, UnbufferedDecoder};
///
/// /// Returns the length of the message, if it has ended.
/// fn receive(bytes: &[u8], buffer: &mut [u8]) -> Result<Option<usize>, DecodeError> {
///     let mut decoder = UnbufferedDecoder::new();
///     let report = decoder.push(buffer, bytes)?;
///     Ok(report.map(|report| report.frame_size()))
/// }
///
/// assert_eq!(receive(b"\x03hi\0", &mut [0; 2]), Ok(Some(2)));
/// assert_eq!(receive(b"\x03hi\0", &mut [0; 1]), Err(DecodeError::TargetBufTooSmall));
/// ```
impl From<PushError> for DecodeError {
    #[inline]
    fn from(rejected: PushError) -> Self {
        rejected.error
    }
}

impl PieceEnd {
    /// Returns the length of the piece's message, or the error that a decoder returns if a piece ends like this one.
    ///
    /// ```
    /// use jcobs::{DecodeError, PieceEnd};
    ///
    /// assert_eq!(PieceEnd::Message(2).into_result(), Ok(2));
    /// let broken = DecodeError::InvalidFrame { decoded_bytes: 1 };
    /// assert_eq!(PieceEnd::Broken(1).into_result(), Err(broken));
    /// assert_eq!(PieceEnd::TooLong.into_result(), Err(DecodeError::TargetBufTooSmall));
    /// ```
    ///
    /// # Errors
    ///
    /// - [`DecodeError::InvalidFrame`]: the piece breaks off inside a block.
    /// - [`DecodeError::TargetBufTooSmall`]: the output of the piece is longer than the decoder's buffer.
    #[inline]
    pub const fn into_result(self) -> Result<usize, DecodeError> {
        match self {
            Self::Message(len) => Ok(len),
            Self::Broken(decoded_bytes) => Err(DecodeError::InvalidFrame { decoded_bytes }),
            Self::TooLong => Err(DecodeError::TargetBufTooSmall),
        }
    }
}

impl core::fmt::Display for ReadFault {
    fn fmt(&self, f: &mut core::fmt::Formatter<'_>) -> core::fmt::Result {
        f.write_str(match self {
            Self::Io => "a read failed",
            Self::TooManyReads => "no frame has ended in 65536 reads",
        })
    }
}

impl core::error::Error for ReadFault {}

/// The former name of [`DecodeReport`].
#[deprecated(since = "0.5.0", note = "use DecodeReport instead")]
pub type DecodingResult = DecodeReport;

/// Decodes the first frame of `source` to the front of `dest`. Leading zeros are skipped, and the frame ends at the
/// next zero, or at the end of the source. The bytes of `dest` after the message stay as they are.
///
/// The report's [`parsed_size`](DecodeReport::parsed_size) counts the leading zeros, the frame, and the zero after the
/// frame if there is one.
///
/// If a frame was cut off between two blocks, the bytes before the cut are a shorter frame, and are decoded without an
/// error. If your protocol ends each frame with a zero, you can detect such a cut, because then the byte of `source` at
/// index `parsed_size - 1` isn't a zero.
///
/// ```
/// let mut dest = [0; 8];
/// let report = jcobs::decode(b"\0\x03hi\0\x02", &mut dest)?;
/// assert_eq!((report.frame_size(), report.parsed_size()), (2, 5));
/// assert_eq!(dest[..2], *b"hi");
/// # Ok::<(), jcobs::DecodeError>(())
/// ```
///
/// # Errors
///
/// - [`DecodeError::EmptyFrame`]: `source` is empty.
/// - [`DecodeError::InvalidFrame`]: the frame breaks off inside a block. Then `dest` begins with the output of the
///   frame, and `decoded_bytes` is the length of this output. If `source` consists only of zeros, this error is
///   returned too, and `decoded_bytes` is 0.
/// - [`DecodeError::TargetBufTooSmall`]: the output of the frame, whole or broken, is longer than `dest`. Then `dest`
///   holds the first bytes of the output.
#[inline]
pub fn decode(source: &[u8], dest: &mut [u8]) -> Result<DecodeReport, DecodeError> {
    proved::decode(source, dest)
}

/// Decodes the frame at the front of `buff` in place, and returns the message's length in bytes. The frame ends at the
/// first zero, or at the end of the buffer. No zero is skipped: if `buff` begins with a zero, the message is empty. The
/// bytes after the message stay as they are.
///
/// ```
/// let mut buff = *b"\x02a\x02b\0";
/// assert_eq!(jcobs::decode_in_place(&mut buff), Ok(3));
/// assert_eq!(buff[..3], *b"a\0b");
/// ```
///
/// # Errors
///
/// - [`DecodeError::EmptyFrame`]: `buff` is empty.
/// - [`DecodeError::InvalidFrame`]: the frame breaks off inside a block. Then `buff` begins with the output of the
///   blocks before the broken block, and `decoded_bytes` is the length of this output. If the last of these blocks
///   isn't full, the output includes the zero after this block.
#[inline]
pub fn decode_in_place(buff: &mut [u8]) -> Result<usize, DecodeError> {
    Ok(decode_in_place_report(buff)?.frame_size())
}

/// Decodes the frame at the front of `buf` in place, as [`decode_in_place`] does, and returns a report. The report has
/// the length of the message and the length of the frame. The length of the frame doesn't include the zero after the
/// frame.
///
/// ```
/// let mut buf = *b"\x03hi\0\x02x";
/// let report = jcobs::decode_in_place_report(&mut buf)?;
/// assert_eq!((report.frame_size(), report.parsed_size()), (2, 3));
/// # Ok::<(), jcobs::DecodeError>(())
/// ```
///
/// # Errors
///
/// Returns the errors that [`decode_in_place`] returns.
#[inline]
pub fn decode_in_place_report(buf: &mut [u8]) -> Result<DecodeReport, DecodeError> {
    proved::decode_in_place_report(buf)
}

/// Decodes the frame at the front of `source`, writes the message to the front of `dest`, and returns the message's
/// length in bytes. The frame was encoded with the given sentinel. It ends at the first sentinel, or at the end of the
/// source. No sentinel is skipped: if `source` begins with a sentinel, the message is empty. The bytes of `dest` after
/// the message stay as they are.
///
/// ```
/// let mut frame = [0; 8];
/// let n = jcobs::encode_with_sentinel(b"line\n", &mut frame, b'\n');
/// let mut dest = [0; 8];
/// assert_eq!(jcobs::decode_with_sentinel(&frame[..n], &mut dest, b'\n'), Ok(5));
/// assert_eq!(dest[..5], *b"line\n");
/// ```
///
/// # Errors
///
/// - [`DecodeError::EmptyFrame`]: `source` is empty.
/// - [`DecodeError::InvalidFrame`]: the frame breaks off inside a block. Then `dest` begins with the output of the
///   blocks before the broken block, and `decoded_bytes` is the length of this output. If the last of these blocks
///   isn't full, the output includes the zero after this block.
/// - [`DecodeError::TargetBufTooSmall`]: the message is longer than `dest`. If the frame breaks off, this error means
///   that the output of the blocks before the broken block is longer than `dest`. If there is a zero after these
///   blocks, the output includes this zero. In both cases `dest` holds the first bytes of the message or of the output.
#[inline]
pub fn decode_with_sentinel(
    source: &[u8],
    dest: &mut [u8],
    sentinel: u8,
) -> Result<usize, DecodeError> {
    proved::decode_with_sentinel(source, dest, sentinel)
}

/// Decodes the frame at the front of `buff` in place, and returns the message's length in bytes. The frame was encoded
/// with the given sentinel. As in the crate `cobs`, the call first XORs each byte of `buff` with the sentinel, even the
/// bytes after the frame. Then it decodes `buff` as [`decode_in_place`] does.
///
/// ```
/// let mut buff = [0; 3];
/// jcobs::encode_with_sentinel(b"hi", &mut buff, 7);
/// assert_eq!(jcobs::decode_in_place_with_sentinel(&mut buff, 7), Ok(2));
/// assert_eq!(buff[..2], *b"hi");
/// ```
///
/// # Errors
///
/// Returns the errors that [`decode_in_place`] returns.
#[inline]
pub fn decode_in_place_with_sentinel(buff: &mut [u8], sentinel: u8) -> Result<usize, DecodeError> {
    proved::decode_in_place_with_sentinel(buff, sentinel)
}

/// Returns the message that [`decode`] would write for the first frame of `source`.
///
/// ```
/// assert_eq!(jcobs::decode_vec(b"\x03hi\0"), Ok(b"hi".to_vec()));
/// ```
///
/// # Errors
///
/// Returns [`DecodeError::EmptyFrame`] or [`DecodeError::InvalidFrame`] if [`decode`] returns this error for `source`.
#[cfg(feature = "alloc")]
pub fn decode_vec(source: &[u8]) -> Result<alloc::vec::Vec<u8>, DecodeError> {
    let mut decoded = alloc::vec![0; source.len()];
    let report = decode(source, &mut decoded)?;
    decoded.truncate(report.frame_size());
    Ok(decoded)
}

/// Returns the message that [`decode_with_sentinel`] would write for the frame at the front of `source`.
///
/// ```
/// let frame = jcobs::encode_vec_with_sentinel(b"hi", 7);
/// assert_eq!(jcobs::decode_vec_with_sentinel(&frame, 7), Ok(b"hi".to_vec()));
/// ```
///
/// # Errors
///
/// Returns [`DecodeError::EmptyFrame`] or [`DecodeError::InvalidFrame`] if [`decode_with_sentinel`] returns this error
/// for `source`.
#[cfg(feature = "alloc")]
pub fn decode_vec_with_sentinel(
    source: &[u8],
    sentinel: u8,
) -> Result<alloc::vec::Vec<u8>, DecodeError> {
    let mut decoded = alloc::vec![0; source.len()];
    let length = decode_with_sentinel(source, &mut decoded, sentinel)?;
    decoded.truncate(length);
    Ok(decoded)
}

/// Returns whether the bytes are a frame, and if so, whether this frame is the one that encoders write for its message.
/// The crate `cobs` doesn't have this call.
///
/// ```
/// use jcobs::{FrameKind, frame_kind};
///
/// assert_eq!(frame_kind(b"\x03hi"), FrameKind::Canonical);
/// assert_eq!(frame_kind(b"\x04hi"), FrameKind::NotAFrame);
/// ```
#[inline]
#[must_use]
pub fn frame_kind(bytes: &[u8]) -> FrameKind {
    proved::frame_kind(bytes)
}
