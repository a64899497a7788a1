// Made by bindings/rust/translate.py from `crates/cobs/src/enc/unbuffered.rt`: change that file, and run it again.
//! An encoder for a message that comes in chunks. The caller passes the encoder's buffer to each call.

use crate::proved::error::DestBufTooSmallError;

/// Encodes a message that comes in chunks, straight into a buffer that the caller passes to each call.
///
/// This encoder writes the frame that [`CobsEncoder`](crate::CobsEncoder) writes, but it neither owns nor borrows the
/// buffer. So a struct can contain both an encoder and its buffer. The encoder consists of three numbers, so it can be
/// passed to code in another language. The numbers say how much of the frame is in the buffer. At the start of a
/// message all three numbers are 0.
///
/// From the first push to the end of the message, the caller must pass the same buffer to each call, and must not
/// change the buffer between two calls. If the caller passes another buffer, of any length, or sets the three numbers
/// to any values, each call is still safe: no call panics, and no call returns a length greater than the buffer's
/// length. But the content of the buffer is then unspecified.
///
/// ```
/// use jcobs::UnbufferedEncoder;
///
/// let mut encoder = UnbufferedEncoder::new();
/// let mut buffer = [0; 64];
/// encoder.push(&mut buffer, b"hel")?;
/// encoder.push(&mut buffer, b"lo")?;
/// assert_eq!((encoder.index, encoder.taken, encoder.full), (0, 5, 0));
/// assert_eq!(encoder.finalize(&mut buffer), Ok(6));
/// assert!(buffer.starts_with(b"\x06hello"));
/// # Ok::<(), Box<dyn std::error::Error>>(())
/// ```
#[repr(C)]
#[derive(Debug, Clone, Copy, PartialEq, Eq, Hash)]
pub struct UnbufferedEncoder {
    /// The index in the buffer at which the code of the open block belongs.
    pub index: usize,

    /// How many bytes the open block has after its code, at most 253.
    pub taken: u8,

    /// Not 0 if the frame so far ends with a full block, and otherwise 0. If `full` isn't 0, the open block has no
    /// bytes yet, and `index` is the index after the full block.
    pub full: u8,
}

impl UnbufferedEncoder {
    /// Makes an encoder for a new message. The buffer that you pass to the encoder must have at least one byte, because
    /// the frame of the empty message has one byte.
    ///
    /// ```
    /// use jcobs::UnbufferedEncoder;
    ///
    /// let mut buffer = [170; 2];
    /// assert_eq!(UnbufferedEncoder::new().finalize(&mut buffer), Ok(1));
    /// assert_eq!(buffer, [1, 170]);
    /// ```
    #[must_use]
    pub const fn new() -> Self {
        UnbufferedEncoder {
            index: 0,
            taken: 0,
            full: 0,
        }
    }

    /// Makes the encoder ready for a new message. The encoder is then in the state that [`new`](UnbufferedEncoder::new)
    /// returns.
    ///
    /// ```
    /// use jcobs::UnbufferedEncoder;
    ///
    /// let mut buffer = [170; 2];
    /// let mut encoder = UnbufferedEncoder::new();
    /// encoder.push(&mut buffer, &[7])?;
    /// encoder.reset();
    /// assert_eq!(encoder.finalize(&mut buffer), Ok(1));
    /// assert_eq!(buffer, [1, 7]);
    /// # Ok::<(), Box<dyn std::error::Error>>(())
    /// ```
    pub fn reset(&mut self) {
        *self = UnbufferedEncoder::new();
    }

    /// Encodes the next bytes of the message, with `dest` as the buffer.
    ///
    /// An empty push changes nothing. The bytes of the buffer after the frame are never written.
    ///
    /// # Errors
    /// Returns `DestBufTooSmallError` in exactly these two cases:
    ///
    /// - The encoded frame of all bytes pushed so far, including `bytes`, is longer than the buffer.
    /// - The encoder's state isn't possible in a buffer of this length.
    ///
    /// In both cases, neither the encoder nor the buffer has changed. In the first case, the caller may end the
    /// message, or push fewer bytes.
    ///
    /// ```
    /// use jcobs::{DestBufTooSmallError, UnbufferedEncoder};
    ///
    /// let mut buffer = [170; 3];
    /// let mut encoder = UnbufferedEncoder::new();
    /// let rejected = encoder.push(&mut buffer, &[7, 8, 9]);
    /// assert_eq!(rejected, Err(DestBufTooSmallError));
    /// assert_eq!(encoder.push(&mut buffer, &[7, 8]), Ok(()));
    /// assert_eq!(encoder.finalize(&mut buffer), Ok(3));
    /// assert_eq!(buffer, [3, 7, 8]);
    /// ```
    // This function is inlined, so that a loop of short pushes keeps the encoder in registers.
    #[inline(always)]
    pub fn push(&mut self, dest: &mut [u8], bytes: &[u8]) -> Result<(), DestBufTooSmallError> {
        if !self.has_room(bytes, dest.len()) {
            return Err(DestBufTooSmallError);
        }
        if !bytes.is_empty() {
            self.append(dest, bytes);
        }
        Ok(())
    }

    /// Ends the message, and returns the length of its encoded frame in bytes. The buffer then begins with that frame,
    /// and the encoder is ready for the next message. Every byte after the frame is as it was before this call.
    ///
    /// # Errors
    /// Returns `DestBufTooSmallError` if the encoder's state isn't possible in a buffer of this length. Then neither
    /// the encoder nor the buffer has changed.
    ///
    /// ```
    /// use jcobs::{DestBufTooSmallError, UnbufferedEncoder};
    ///
    /// let rejected = UnbufferedEncoder::new().finalize(&mut []);
    /// assert_eq!(rejected, Err(DestBufTooSmallError));
    /// ```
    pub fn finalize(&mut self, dest: &mut [u8]) -> Result<usize, DestBufTooSmallError> {
        if !self.has_room(&[], dest.len()) {
            return Err(DestBufTooSmallError);
        }
        let len = self.close(dest);
        self.reset();
        Ok(len)
    }

    /// Encodes the next byte of the message, with `dest` as the buffer.
    ///
    /// The effect and the result are those of a [`push`](UnbufferedEncoder::push) of this one byte.
    ///
    /// # Errors
    /// Returns `DestBufTooSmallError` if the encoded frame of the message up to and including this byte is longer than
    /// the buffer, or if the encoder's state isn't possible in a buffer of this length. In both cases, neither the
    /// encoder nor the buffer has changed.
    ///
    /// ```
    /// use jcobs::{DestBufTooSmallError, UnbufferedEncoder};
    ///
    /// let mut buffer = [170; 2];
    /// let mut encoder = UnbufferedEncoder::new();
    /// assert_eq!(encoder.feed(&mut buffer, 7), Ok(()));
    /// assert_eq!(encoder.feed(&mut buffer, 8), Err(DestBufTooSmallError));
    /// assert_eq!(encoder.finalize(&mut buffer), Ok(2));
    /// assert_eq!(buffer, [2, 7]);
    /// ```
    #[inline(always)]
    pub fn feed(&mut self, dest: &mut [u8], byte: u8) -> Result<(), DestBufTooSmallError> {
        if !self.has_room(&[byte], dest.len()) {
            return Err(DestBufTooSmallError);
        }
        self.append_byte(dest, byte);
        Ok(())
    }
}
