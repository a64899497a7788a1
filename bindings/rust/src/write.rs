//! Writes messages to a port. Each message is written as a frame, followed by a zero.

use std::io::{self, ErrorKind, Write};
use std::vec::Vec;

use crate::frames::append_frame;

/// Writes messages to a serial port, a socket, a file, or anything else that implements [`Write`]. For each message,
/// the writer calls [`write`](Write::write) with the message's frame and the zero that ends the frame.
///
/// The crate `cobs` doesn't have this type.
///
/// ```
/// use jcobs::MessageWriter;
///
/// let mut messages = MessageWriter::new(Vec::new());
/// messages.write_message(b"hello")?;
/// messages.write_message(b"")?;
/// messages.flush()?;
/// assert_eq!(messages.into_inner(), b"\x06hello\0\x01\0");
/// # Ok::<(), std::io::Error>(())
/// ```
///
/// # Ports with a timeout, and ports that don't block
///
/// If the port takes only a part of a frame, the writer keeps the rest, and the next call goes on with it. So each
/// message that the writer has taken arrives once and whole, as soon as the port takes bytes again:
///
/// ```
/// use std::io::{self, ErrorKind, Write};
/// use jcobs::MessageWriter;
///
/// /// Returns whether the message is on its way. If it isn't, the port is busy: call again later.
/// fn send(messages: &mut MessageWriter<impl Write>, message: &[u8]) -> io::Result<bool> {
///     match messages.write_message(message) {
///         Ok(()) => Ok(true),
///         Err(e) if matches!(e.kind(), ErrorKind::TimedOut | ErrorKind::WouldBlock) => Ok(false),
///         Err(e) => Err(e),
///     }
/// }
/// # assert!(send(&mut MessageWriter::new(Vec::new()), b"hi")?);
/// # Ok::<(), io::Error>(())
/// ```
#[derive(Debug)]
pub struct MessageWriter<W> {
    inner: W,
    /// The frame of the last message, and its zero.
    frame: Vec<u8>,
    /// How many bytes of the frame are written.
    written: usize,
}

impl<W: Write> MessageWriter<W> {
    /// Makes a writer. `new` allocates nothing. The writer allocates memory when a message needs it, and keeps this
    /// memory for later messages.
    #[must_use]
    pub const fn new(inner: W) -> Self {
        Self {
            inner,
            frame: Vec::new(),
            written: 0,
        }
    }

    /// Takes a message, and writes its frame and a zero. The call doesn't flush the inner writer.
    ///
    /// Before that, the call writes the rest of the last message, if the port hasn't taken it yet. `Ok` says that the
    /// writer has taken the message, and not that the port has taken all of its bytes: the next call, or
    /// [`flush`](Self::flush), writes what is left, or returns the error of the port.
    ///
    /// # Errors
    ///
    /// After an error the writer hasn't taken the message, and has written no byte of it.
    ///
    /// - Every error of [`Write::write`] for the rest of the last message, except [`Interrupted`](ErrorKind::Interrupted).
    ///   The writer keeps what is left of this rest.
    /// - [`WriteZero`](ErrorKind::WriteZero): the port took no byte of the rest.
    /// - [`OutOfMemory`](ErrorKind::OutOfMemory): there isn't enough memory for the frame.
    pub fn write_message(&mut self, message: &[u8]) -> io::Result<()> {
        self.write_rest()?;
        append_frame(&mut self.frame, message).map_err(|_| ErrorKind::OutOfMemory)?;
        // The message is taken now. If the port fails, the next call meets the same port, and returns its error.
        let _ = self.write_rest();
        Ok(())
    }

    /// Writes what is left of the last message, and flushes the inner writer.
    ///
    /// # Errors
    ///
    /// The errors of [`write_message`](Self::write_message), and those of [`Write::flush`].
    pub fn flush(&mut self) -> io::Result<()> {
        self.write_rest()?;
        self.inner.flush()
    }

    /// Writes what is left of the last message.
    fn write_rest(&mut self) -> io::Result<()> {
        while let Some(rest @ [_, ..]) = self.frame.get(self.written..) {
            match self.inner.write(rest) {
                Ok(0) => return Err(ErrorKind::WriteZero.into()),
                Ok(len) => self.written += len,
                Err(error) if error.kind() == ErrorKind::Interrupted => {}
                Err(error) => return Err(error),
            }
        }
        self.frame.clear();
        self.written = 0;
        Ok(())
    }
}

impl<W> MessageWriter<W> {
    /// Returns a reference to the inner writer.
    #[must_use]
    pub const fn get_ref(&self) -> &W {
        &self.inner
    }

    /// Returns a mutable reference to the inner writer. Call [`flush`](Self::flush) before you write bytes directly to
    /// the inner writer: otherwise they may come inside a frame.
    pub fn get_mut(&mut self) -> &mut W {
        &mut self.inner
    }

    /// Returns the inner writer. What is left of the last message is lost; [`flush`](Self::flush) writes it.
    pub fn into_inner(self) -> W {
        self.inner
    }
}
