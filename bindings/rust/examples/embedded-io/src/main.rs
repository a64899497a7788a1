//! Sends and receives messages over a port of embedded-io, in buffers that the caller passes. Only `main` needs `std`.

use core::convert::Infallible;

use embedded_io::{ErrorType, Read, Write};
use jcobs::{CobsDecoderHeapless, DecodeError, FrameDecoder};

/// Reads bytes from the port once, and calls `on_message` for each frame that ends in these bytes. Returns the number
/// of bytes that were read, which is 0 at the end of the input.
///
/// If the port returns an error, no byte is lost: the next call continues after the bytes that were read.
fn receive<R: Read, const N: usize>(
    port: &mut R,
    decoder: &mut CobsDecoderHeapless<N>,
    mut on_message: impl FnMut(Result<&[u8], DecodeError>),
) -> Result<usize, R::Error> {
    let mut chunk = [0; 64];
    let count = port.read(&mut chunk)?;
    let mut bytes = &chunk[..count];
    while let Some((end, taken)) = decoder.feed_piece(bytes) {
        bytes = &bytes[taken..];
        on_message(end.into_result().map(|len| &decoder.dest()[..len]));
    }
    Ok(count)
}

/// Writes the frame of a message and a zero to the port. `frame` is a buffer for the frame and the zero.
///
/// # Panics
///
/// Panics if the frame and the zero don't fit in `frame`. A buffer of `max_encoding_length(message.len()) + 1` bytes is
/// always long enough.
fn send<W: Write>(port: &mut W, message: &[u8], frame: &mut [u8]) -> Result<(), W::Error> {
    let len = jcobs::encode(message, frame);
    frame[len] = 0;
    port.write_all(&frame[..=len])?;
    port.flush()
}

/// A port whose output is connected to its input. Each read returns at most 3 bytes.
#[derive(Default)]
struct Loopback(Vec<u8>);

impl ErrorType for Loopback {
    type Error = Infallible;
}

impl Read for Loopback {
    fn read(&mut self, to: &mut [u8]) -> Result<usize, Infallible> {
        let len = self.0.len().min(to.len()).min(3);
        to[..len].copy_from_slice(&self.0[..len]);
        self.0.drain(..len);
        Ok(len)
    }
}

impl Write for Loopback {
    fn write(&mut self, bytes: &[u8]) -> Result<usize, Infallible> {
        self.0.extend(bytes);
        Ok(bytes.len())
    }

    fn flush(&mut self) -> Result<(), Infallible> {
        Ok(())
    }
}

fn main() {
    let mut port = Loopback::default();
    let mut frame = [0; jcobs::max_encoding_length(300) + 1];
    for message in [&b"hello"[..], b"", b"a\0b", &[7; 300]] {
        let Ok(()) = send(&mut port, message, &mut frame);
    }
    let mut decoder = CobsDecoderHeapless::<16>::new();
    let mut received = Vec::new();
    while receive(&mut port, &mut decoder, |message| {
        received.push(message.map(<[u8]>::to_vec));
    }) != Ok(0)
    {}
    let expected = [&b"hello"[..], b"", b"a\0b"].map(|message| Ok(message.to_vec()));
    assert_eq!(received[..3], expected);
    assert_eq!(received[3..], [Err(DecodeError::TargetBufTooSmall)]);
    println!("{} frames", received.len());
}
