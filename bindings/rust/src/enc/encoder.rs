//! Encodes a message that comes in chunks, and writes its frame to a slice.

use crate::enc::DestBufTooSmallError;
use crate::proved::UnbufferedEncoder;

/// Encodes a message that comes in chunks, and writes its frame to a slice.
///
/// ```
/// let mut frame = [0; 16];
/// let mut encoder = jcobs::CobsEncoder::new(&mut frame);
/// encoder.push(b"hel")?;
/// encoder.push(b"lo")?;
/// let n = encoder.finalize();
/// assert_eq!(frame[..n], *b"\x06hello");
/// # Ok::<(), jcobs::DestBufTooSmallError>(())
/// ```
#[derive(Debug)]
pub struct CobsEncoder<'a> {
    dest: &'a mut [u8],
    encoder: UnbufferedEncoder,
}

impl<'a> CobsEncoder<'a> {
    /// Makes an encoder for a new message, whose frame is written to `out_buf`. No frame fits an empty slice, so an
    /// encoder over an empty slice returns an error for each push.
    #[inline]
    #[must_use]
    pub const fn new(out_buf: &'a mut [u8]) -> CobsEncoder<'a> {
        CobsEncoder {
            dest: out_buf,
            encoder: UnbufferedEncoder::new(),
        }
    }

    /// Encodes the next bytes of the message.
    ///
    /// # Errors
    ///
    /// Returns [`DestBufTooSmallError`] if and only if the frame of the message so far, including these bytes, doesn't
    /// fit the slice. In that case nothing has changed: the caller can end the message without these bytes, or push
    /// fewer bytes.
    #[inline]
    pub fn push(&mut self, data: &[u8]) -> Result<(), DestBufTooSmallError> {
        self.encoder.push(self.dest, data)
    }

    /// Ends the message, and returns the length of its frame in bytes. The slice then begins with the frame that
    /// [`encode`](crate::encode) would write, without a sentinel. The bytes after the frame are as they were before the
    /// first push. The length is 0 only if the slice is empty.
    #[inline]
    #[must_use]
    pub fn finalize(mut self) -> usize {
        self.encoder.finalize(self.dest).unwrap_or(0)
    }
}
