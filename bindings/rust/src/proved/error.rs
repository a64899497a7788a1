// Made by bindings/rust/translate.py from `crates/cobs/src/error.rt`: change that file, and run it again.
//! Errors, and the report about a decoded message.

/// The error of an encoder. Either the frame is longer than the slice to which it should be written, or the encoder's
/// state isn't possible in a slice of that length.
///
/// ```
/// use jcobs::DestBufTooSmallError;
///
/// let text = DestBufTooSmallError.to_string();
/// assert_eq!(text.as_str(), "out of bounds error during encoding");
/// ```
#[derive(Debug, Clone, Copy, PartialEq, Eq, Hash)]
#[cfg_attr(feature = "serde", derive(serde::Serialize, serde::Deserialize))]
#[cfg_attr(feature = "defmt", derive(defmt::Format))]
pub struct DestBufTooSmallError;

impl core::fmt::Display for DestBufTooSmallError {
    fn fmt(&self, f: &mut core::fmt::Formatter<'_>) -> core::fmt::Result {
        match self {
            Self => f.write_str("out of bounds error during encoding"),
        }
    }
}

impl core::error::Error for DestBufTooSmallError {}

/// The reason why a frame is rejected. The variants have the same names as in the Rust crate `cobs`.
///
/// ```
/// use jcobs::{DecodeError, decode};
///
/// assert_eq!(decode(&[], &mut [0; 4]), Err(DecodeError::EmptyFrame));
/// let rejected = decode(&[3, 1, 2], &mut [0; 1]);
/// assert_eq!(rejected, Err(DecodeError::TargetBufTooSmall));
/// ```
#[derive(Debug, Clone, Copy, PartialEq, Eq, Hash)]
#[cfg_attr(feature = "serde", derive(serde::Serialize, serde::Deserialize))]
#[cfg_attr(feature = "defmt", derive(defmt::Format))]
pub enum DecodeError {
    /// There was no byte to decode.
    EmptyFrame,

    /// The frame breaks off inside a block, or the source has only zeros.
    InvalidFrame {
        /// How many bytes were decoded. If the output was written to the caller's buffer or to the buffer of a
        /// streaming decoder, this buffer begins with the decoded bytes.
        decoded_bytes: usize,
    },

    /// The frame decodes to more bytes than the buffer has room for.
    TargetBufTooSmall,
}

impl core::fmt::Display for DecodeError {
    fn fmt(&self, f: &mut core::fmt::Formatter<'_>) -> core::fmt::Result {
        match self {
            Self::EmptyFrame => f.write_str("empty input frame"),
            Self::InvalidFrame { decoded_bytes, .. } => write!(
                f,
                "frame with invalid format, written {decoded_bytes} to decoded buffer"
            ),
            Self::TargetBufTooSmall => f.write_str("target buffer too small"),
        }
    }
}

impl core::error::Error for DecodeError {}

/// The error of a `push` to a streaming decoder, with the number of bytes that were consumed.
///
/// The decoder has consumed the first `parsed_size` bytes of the push. To continue, the caller pushes the bytes that
/// weren't consumed.
///
/// ```
/// use jcobs::{DecodeError, PushError, UnbufferedDecoder};
///
/// let mut buffer = [0; 4];
/// let mut decoder = UnbufferedDecoder::new();
/// let rejected = PushError {
///     error: DecodeError::InvalidFrame { decoded_bytes: 1 },
///     parsed_size: 3,
/// };
/// assert_eq!(decoder.push(&mut buffer, &[3, 7, 0, 2, 9, 0]), Err(rejected));
/// ```
#[derive(Debug, Clone, Copy, PartialEq, Eq, Hash)]
#[cfg_attr(feature = "serde", derive(serde::Serialize, serde::Deserialize))]
#[cfg_attr(feature = "defmt", derive(defmt::Format))]
pub struct PushError {
    /// The error that [`feed`](crate::CobsDecoder::feed) returns for the last consumed byte.
    pub error: DecodeError,

    /// How many bytes were consumed, including the byte that raised the error.
    pub parsed_size: usize,
}

impl core::fmt::Display for PushError {
    fn fmt(&self, f: &mut core::fmt::Formatter<'_>) -> core::fmt::Result {
        match self {
            Self { error, .. } => write!(f, "{error}"),
        }
    }
}

impl core::error::Error for PushError {}

/// A report about a decoded message: how many bytes of the source were consumed, and how many bytes the message has.
/// The methods have the same names as in the Rust crate `cobs`.
///
/// ```
/// use jcobs::decode;
///
/// let report = decode(&[0, 3, 1, 2, 0, 1], &mut [0; 4])?;
/// assert_eq!(report.parsed_size(), 5);
/// assert_eq!(report.frame_size(), 2);
/// # Ok::<(), Box<dyn std::error::Error>>(())
/// ```
#[derive(Debug, Clone, Copy, PartialEq, Eq, Hash)]
#[cfg_attr(feature = "serde", derive(serde::Serialize, serde::Deserialize))]
#[cfg_attr(feature = "defmt", derive(defmt::Format))]
pub struct DecodeReport {
    pub(crate) parsed_size: usize,
    pub(crate) frame_size: usize,
}

impl DecodeReport {
    /// Returns how many bytes of the source were consumed. The documentation of the call that made the report says
    /// whether this number includes leading sentinels and the sentinel after the frame.
    ///
    /// ```
    /// use jcobs::decode;
    ///
    /// assert_eq!(decode(&[0, 1, 0], &mut [])?.parsed_size(), 3);
    /// # Ok::<(), Box<dyn std::error::Error>>(())
    /// ```
    #[must_use]
    pub const fn parsed_size(&self) -> usize {
        self.parsed_size
    }

    /// Returns the length of the message in bytes. The message is at the front of the buffer.
    ///
    /// ```
    /// use jcobs::decode;
    ///
    /// assert_eq!(decode(&[0, 2, 7], &mut [0; 4])?.frame_size(), 1);
    /// # Ok::<(), Box<dyn std::error::Error>>(())
    /// ```
    #[must_use]
    pub const fn frame_size(&self) -> usize {
        self.frame_size
    }
}
