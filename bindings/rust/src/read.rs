//! Reads messages from a port, or from any other buffered reader.

use std::boxed::Box;
use std::io::{self, BufRead, ErrorKind};

use crate::dec::{DecodeError, PieceEnd, UnbufferedDecoder};

/// Reads messages from a serial port, a socket, a file, or any other source that implements [`BufRead`].
///
/// If the source implements only [`Read`](io::Read), wrap it in a [`BufReader`](std::io::BufReader). A `BufReader` asks
/// the source for as many bytes as fit into its own buffer. If a read returns fewer bytes, the `BufReader` doesn't wait
/// for more. The crate `cobs` doesn't have this type.
///
/// ```
/// use std::io::BufReader;
/// use jcobs::MessageReader;
///
/// # fn open_port() -> std::io::Result<&'static [u8]> { Ok(b"\x06hello\0\x09h\0\x02x\0") }
/// let mut messages = MessageReader::new(BufReader::new(open_port()?), 256);
/// let mut taken = Vec::new();
/// while let Some(message) = messages.read_message()? {
///     match message {
///         Ok(message) => taken.push(message.to_vec()),
///         Err(error) => eprintln!("dropped: {error}"),
///     }
/// }
/// assert_eq!(taken, [&b"hello"[..], b"x"]);
/// # Ok::<(), std::io::Error>(())
/// ```
///
/// # Ports with a timeout, and ports that don't block
///
/// If the port returns an error other than [`ErrorKind::Interrupted`], the reader returns this error unchanged, and no
/// byte is lost. If a frame has begun, the reader keeps the bytes of this frame, and the next call continues after
/// these bytes. So a port with a timeout, or a port that doesn't block, can be read in a loop:
///
/// ```
/// use std::io::{self, BufRead, ErrorKind};
/// use jcobs::MessageReader;
///
/// /// Returns the length of the next message, if there is one yet.
/// fn poll(messages: &mut MessageReader<impl BufRead>) -> io::Result<Option<usize>> {
///     match messages.read_message() {
///         Ok(Some(Ok(message))) => Ok(Some(message.len())),
///         // A frame that is broken or too long. The next frame isn't affected.
///         Ok(Some(Err(_))) => Ok(None),
///         Ok(None) => Err(io::Error::new(ErrorKind::UnexpectedEof, "the port was closed")),
///         // No frame has ended yet.
///         Err(e) if matches!(e.kind(), ErrorKind::TimedOut | ErrorKind::WouldBlock) => Ok(None),
///         Err(e) => Err(e),
///     }
/// }
/// # let mut messages = MessageReader::new(&b"\x03hi\0\x09\0"[..], 8);
/// # assert_eq!(poll(&mut messages)?, Some(2));
/// # assert_eq!(poll(&mut messages)?, None);
/// # assert!(poll(&mut messages).is_err());
/// # Ok::<(), io::Error>(())
/// ```
#[derive(Debug)]
pub struct MessageReader<R> {
    inner: R,
    decoder: UnbufferedDecoder,
    message: Box<[u8]>,
}

impl<R: BufRead> MessageReader<R> {
    /// Makes a reader that can read messages of up to `max_len` bytes. `new` allocates a buffer of `max_len` bytes, and
    /// this buffer never grows.
    ///
    /// ```
    /// let stdin = std::io::stdin().lock();
    /// let messages = jcobs::MessageReader::new(stdin, 1024);
    /// ```
    ///
    /// # Panics
    ///
    /// Panics if `max_len` is greater than `isize::MAX`.
    #[must_use]
    pub fn new(inner: R, max_len: usize) -> Self {
        Self {
            inner,
            decoder: UnbufferedDecoder::new(),
            message: std::vec![0; max_len].into_boxed_slice(),
        }
    }

    /// Reads until a zero ends a frame, and returns the frame's message.
    ///
    /// - `Ok(Some(Ok(message)))`: a frame has ended, and this is its message.
    /// - `Ok(Some(Err(error)))`: a frame has ended, but it is broken or too long. If it is broken, the error is
    ///   [`DecodeError::InvalidFrame`], which has the number of decoded bytes. If its message is longer than `max_len`,
    ///   the error is [`DecodeError::TargetBufTooSmall`]. Call again for the next message: such a frame never affects
    ///   another frame.
    /// - `Ok(None)`: the source has ended, and no frame is unfinished. If the source grows later, call again.
    ///
    /// Zeros without a frame between them are skipped. Before a zero ends a frame, the call may read any number of
    /// bytes. The bytes of a message that is too long are dropped.
    ///
    /// ```
    /// use jcobs::{DecodeError, MessageReader};
    ///
    /// let mut messages = MessageReader::new(&b"\x03hi\0\x06hello\0"[..], 4);
    /// assert_eq!(messages.read_message()?, Some(Ok(&b"hi"[..])));
    /// assert_eq!(messages.read_message()?, Some(Err(DecodeError::TargetBufTooSmall)));
    /// assert_eq!(messages.read_message()?, None);
    /// # Ok::<(), std::io::Error>(())
    /// ```
    ///
    /// # Errors
    ///
    /// - [`ErrorKind::UnexpectedEof`]: the source has ended inside a frame.
    /// - Every error of the source, such as [`ErrorKind::TimedOut`] and [`ErrorKind::WouldBlock`]. The only exception
    ///   is [`ErrorKind::Interrupted`]: after this error the source is read again.
    ///
    /// After an error no byte is lost: the next call continues where this call stopped.
    pub fn read_message(&mut self) -> io::Result<Option<Result<&[u8], DecodeError>>> {
        let end = self.read_piece()?;
        Ok(end.map(|end| end.into_result().map(|len| &self.message[..len])))
    }

    /// Reads until a zero ends a piece, and returns how the piece ended. Returns `None` if the source ends while no
    /// piece is open.
    fn read_piece(&mut self) -> io::Result<Option<PieceEnd>> {
        loop {
            let bytes = match self.inner.fill_buf() {
                Ok(bytes) => bytes,
                Err(error) if error.kind() == ErrorKind::Interrupted => continue,
                Err(error) => return Err(error),
            };
            if bytes.is_empty() {
                if self.decoder.is_idle() {
                    return Ok(None);
                }
                return Err(io::Error::new(
                    ErrorKind::UnexpectedEof,
                    "the source ended inside a frame",
                ));
            }
            let ended = self.decoder.feed_piece(&mut self.message, bytes);
            let taken = ended.map_or(bytes.len(), |(_, taken)| taken);
            self.inner.consume(taken);
            if let Some((end, _)) = ended {
                return Ok(Some(end));
            }
        }
    }
}

/// Returns an error of the kind [`InvalidData`](ErrorKind::InvalidData) that contains the [`DecodeError`]. So a function
/// that returns an [`io::Error`] can use `?` for a frame that is broken or too long, too:
///
/// ```
/// use std::io::{self, BufRead, ErrorKind};
/// use jcobs::MessageReader;
///
/// /// Returns the length of the next message.
/// fn next_len(messages: &mut MessageReader<impl BufRead>) -> io::Result<usize> {
///     Ok(messages.read_message()?.ok_or(ErrorKind::UnexpectedEof)??.len())
/// }
///
/// let mut messages = MessageReader::new(&b"\x03hi\0\x09cut\0"[..], 256);
/// assert_eq!(next_len(&mut messages)?, 2);
/// assert_eq!(next_len(&mut messages).unwrap_err().kind(), ErrorKind::InvalidData);
/// # Ok::<(), io::Error>(())
/// ```
impl From<DecodeError> for io::Error {
    fn from(error: DecodeError) -> Self {
        Self::new(ErrorKind::InvalidData, error)
    }
}

impl<R> MessageReader<R> {
    /// Returns a reference to the source.
    #[must_use]
    pub const fn get_ref(&self) -> &R {
        &self.inner
    }

    /// Returns a mutable reference to the source, for example to set the timeout of a port. The reader doesn't decode
    /// bytes that you read directly from the source.
    pub fn get_mut(&mut self) -> &mut R {
        &mut self.inner
    }

    /// Returns the source, which still has the bytes after the last frame that was read. If `read_message` returned an
    /// error inside a frame, the first bytes of this frame have been consumed, and are lost.
    pub fn into_inner(self) -> R {
        self.inner
    }
}
