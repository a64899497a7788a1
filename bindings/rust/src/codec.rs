//! A codec for messages over the streams and sinks of `tokio-util`.

use std::boxed::Box;
use std::io::{self, ErrorKind};

use bytes::{BufMut, Bytes, BytesMut};
use tokio_util::codec::{Decoder, Encoder};

use crate::dec::{DecodeError, UnbufferedDecoder};

/// A codec for [`Framed`](tokio_util::codec::Framed). With this codec, `Framed` turns anything that reads and writes
/// bytes into a stream and a sink of messages.
///
/// The codec decodes the bytes as they arrive. So it keeps at most `max_len` bytes of a message, even if the frame is
/// longer.
///
/// Each item of the stream is a message, or an error for a frame that is broken or too long.
/// [`MessageReader`](crate::MessageReader) would return the same error for this frame. Such a frame never affects
/// another frame. If the source returns an error, the stream returns this error and ends. If the source ends inside a
/// frame, the stream returns [`UnexpectedEof`](ErrorKind::UnexpectedEof) and ends. For each message, the sink sends the
/// frame of the message, and then a zero. The crate `cobs` doesn't have this type.
///
/// ```
/// use bytes::BytesMut;
/// use jcobs::{DecodeError, MessageCodec};
/// use tokio_util::codec::{Decoder, Encoder};
///
/// let mut codec = MessageCodec::new(4);
/// let mut line = BytesMut::new();
/// codec.encode(b"hi", &mut line)?;
/// codec.encode(b"hello", &mut line)?;
/// assert_eq!(line, b"\x03hi\0\x06hello\0"[..]);
///
/// assert_eq!(codec.decode(&mut line)?, Some(Ok(b"hi"[..].into())));
/// assert_eq!(codec.decode(&mut line)?, Some(Err(DecodeError::TargetBufTooSmall)));
/// assert_eq!(codec.decode(&mut line)?, None);
/// # Ok::<(), std::io::Error>(())
/// ```
#[derive(Debug, Clone)]
pub struct MessageCodec {
    decoder: UnbufferedDecoder,
    message: Box<[u8]>,
}

impl MessageCodec {
    /// Makes a codec that can receive messages of up to `max_len` bytes. `new` allocates a buffer of `max_len` bytes.
    /// The messages that the codec sends may be longer.
    ///
    /// # Panics
    ///
    /// Panics if `max_len` is greater than `isize::MAX`.
    #[must_use]
    pub fn new(max_len: usize) -> Self {
        Self {
            decoder: UnbufferedDecoder::new(),
            message: std::vec![0; max_len].into_boxed_slice(),
        }
    }
}

impl Decoder for MessageCodec {
    type Item = Result<Bytes, DecodeError>;
    type Error = io::Error;

    fn decode(&mut self, bytes: &mut BytesMut) -> io::Result<Option<Self::Item>> {
        let ended = self.decoder.feed_piece(&mut self.message, bytes);
        let taken = ended.map_or(bytes.len(), |(_, taken)| taken);
        drop(bytes.split_to(taken));
        Ok(ended.map(|(end, _)| {
            let len = end.into_result()?;
            Ok(Bytes::copy_from_slice(&self.message[..len]))
        }))
    }

    fn decode_eof(&mut self, bytes: &mut BytesMut) -> io::Result<Option<Self::Item>> {
        match self.decode(bytes)? {
            None if !self.decoder.is_idle() => Err(io::Error::new(
                ErrorKind::UnexpectedEof,
                "the source ended inside a frame",
            )),
            item => Ok(item),
        }
    }
}

impl<M: AsRef<[u8]>> Encoder<M> for MessageCodec {
    type Error = io::Error;

    fn encode(&mut self, message: M, bytes: &mut BytesMut) -> io::Result<()> {
        let message = message.as_ref();
        let room = crate::max_encoding_length(message.len()) + 1;
        bytes.reserve(room);
        // Splits off the spare capacity of `bytes`, writes the frame into it, and joins it to `bytes` again.
        let mut frame = bytes.split_off(bytes.len());
        frame.resize(room, 0);
        let len = crate::encode(message, &mut frame);
        frame.truncate(len);
        frame.put_u8(0);
        bytes.unsplit(frame);
        Ok(())
    }
}
