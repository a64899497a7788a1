//! Iterates over the frames of a recorded stream, and encodes messages as a stream.

use core::iter::{self, FusedIterator};
use core::mem;

use crate::access::Access;
use crate::dec::{DecodeError, decode_in_place};
use crate::search::memchr;
#[cfg(feature = "alloc")]
use crate::{enc::encode, max_encoding_length, memory, memory::AllocError};
#[cfg(feature = "alloc")]
use alloc::vec::Vec;

/// Returns an iterator over the frames of a recorded stream, in order. Each item is a frame that hasn't been decoded
/// yet. The zero that ends the frame isn't part of the item. Extra zeros, such as a second zero after a frame, are
/// skipped. The bytes after the last zero aren't an item.
///
/// The iterator doesn't check the frames. For a damaged frame, [`decode`](crate::decode) may return an error. The crate
/// `cobs` doesn't have this call.
///
/// ```
/// use jcobs::frames;
///
/// let mut stream = frames(b"\0\x03hi\0\0\x02x\0\x05un");
/// assert_eq!(stream.next(), Some(&b"\x03hi"[..]));
/// assert_eq!(stream.next(), Some(&b"\x02x"[..]));
/// assert_eq!(stream.next(), None);
/// assert_eq!(stream.remainder(), b"\x05un");
/// ```
#[inline]
pub const fn frames(stream: &[u8]) -> Frames<'_> {
    Frames { rest: stream }
}

/// An iterator over the frames of a recorded stream. [`frames`] makes it.
#[derive(Debug, Clone)]
#[must_use = "iterators are lazy and do nothing unless consumed"]
pub struct Frames<'a> {
    rest: &'a [u8],
}

impl<'a> Frames<'a> {
    /// Returns the rest of the stream. The rest begins after the zero that ends the last frame that `next` returned.
    /// Before the first call of `next`, the rest is the whole stream. After `next` has returned `None`, the rest is the
    /// bytes after the last zero of the stream.
    #[inline]
    #[must_use]
    pub const fn remainder(&self) -> &'a [u8] {
        self.rest
    }

    /// Returns the bytes before the next zero, or `None` if there is no zero. If the next byte is a zero, the result is
    /// empty.
    #[inline]
    fn next_piece(&mut self) -> Option<&'a [u8]> {
        let (piece, from_zero) = self.rest.split_at_checked(memchr(0, self.rest)?)?;
        self.rest = from_zero.split_first()?.1;
        Some(piece)
    }
}

impl<'a> Iterator for Frames<'a> {
    type Item = &'a [u8];

    #[inline]
    fn next(&mut self) -> Option<&'a [u8]> {
        iter::from_fn(|| self.next_piece()).find(|piece| !piece.is_empty())
    }

    #[inline]
    fn size_hint(&self) -> (usize, Option<usize>) {
        most_frames(self.rest)
    }
}

impl FusedIterator for Frames<'_> {}

/// Returns a lower and an upper bound for the number of frames in a stream. The upper bound is half of the stream's
/// length, because each frame has at least one byte, and is followed by a zero.
#[inline]
const fn most_frames(stream: &[u8]) -> (usize, Option<usize>) {
    (0, Some(stream.len() / 2))
}

/// Returns an iterator over the messages of a recorded stream. Each frame is decoded in place: the message is written
/// over the frame, so no other memory is used.
///
/// A zero ends each frame of the stream. Each frame has one item: its message, or an error if the frame is broken. A
/// broken frame never affects another frame. The crate `cobs` doesn't have this call.
///
/// ```
/// use jcobs::decode_stream_in_place;
///
/// let mut stream = *b"\x03hi\0\x07cut\0\x02x\0";
/// let mut messages = Vec::new();
/// for message in decode_stream_in_place(&mut stream) {
///     match message {
///         Ok(message) => messages.push(message),
///         Err(error) => eprintln!("dropped: {error}"),
///     }
/// }
/// assert_eq!(messages, [&b"hi"[..], b"x"]);
/// ```
///
/// # Errors
///
/// An item is [`DecodeError::InvalidFrame`] if the frame breaks off inside a block. The item is then the same error
/// that [`decode_in_place`](crate::decode_in_place) returns for the frame.
#[inline]
pub const fn decode_stream_in_place(stream: &mut [u8]) -> DecodeStreamInPlace<'_> {
    DecodeStreamInPlace { rest: stream }
}

/// An iterator over the messages of a recorded stream. [`decode_stream_in_place`] makes it.
#[derive(Debug)]
#[must_use = "iterators are lazy and do nothing unless consumed"]
pub struct DecodeStreamInPlace<'a> {
    rest: &'a mut [u8],
}

impl<'a> DecodeStreamInPlace<'a> {
    /// Returns the rest of the stream, unchanged. The rest begins after the zero that ends the last frame that `next`
    /// decoded. After `next` has returned `None`, the rest is the bytes after the last zero of the stream.
    #[inline]
    #[must_use]
    pub fn into_remainder(self) -> &'a mut [u8] {
        self.rest
    }

    /// Returns the bytes before the next zero, or `None` if there is no zero. If the next byte is a zero, the result is
    /// empty.
    #[inline]
    fn next_piece(&mut self) -> Option<&'a mut [u8]> {
        let len = memchr(0, self.rest)?;
        let (piece, from_zero) = mem::take(&mut self.rest).split_at_mut_checked(len)?;
        self.rest = from_zero.split_first_mut()?.1;
        Some(piece)
    }
}

impl<'a> Iterator for DecodeStreamInPlace<'a> {
    type Item = Result<&'a mut [u8], DecodeError>;

    #[inline]
    fn next(&mut self) -> Option<Self::Item> {
        let frame = iter::from_fn(|| self.next_piece()).find(|piece| !piece.is_empty())?;
        Some(decode_in_place(frame).map(|len| frame.part_mut(..len)))
    }

    #[inline]
    fn size_hint(&self) -> (usize, Option<usize>) {
        most_frames(self.rest)
    }
}

impl FusedIterator for DecodeStreamInPlace<'_> {}

/// Encodes messages as a stream. For each message in order, the stream has the frame of the message and then a zero. If
/// there are no messages, the stream is empty.
///
/// A decoder whose buffer is long enough for each message decodes this stream to exactly these messages. The crate
/// `cobs` doesn't have this call.
///
/// ```
/// use jcobs::encode_frames;
///
/// assert_eq!(encode_frames(["hi", ""])?, b"\x03hi\0\x01\0");
///
/// let record = [1, 2, 3, 4, 5];
/// assert_eq!(encode_frames(record.chunks(3))?, b"\x04\x01\x02\x03\0\x03\x04\x05\0");
/// # Ok::<(), jcobs::AllocError>(())
/// ```
///
/// # Errors
///
/// [`AllocError`]: memory for the stream ran out. With each message the stream gets longer, and needs more memory.
#[cfg(feature = "alloc")]
pub fn encode_frames<I>(messages: I) -> Result<Vec<u8>, AllocError>
where
    I: IntoIterator,
    I::Item: AsRef<[u8]>,
{
    // The proved function of the same name isn't called, because it takes a slice of vectors. To make this slice, this
    // function would have to copy each message to a vector.
    let mut stream = Vec::new();
    messages
        .into_iter()
        .try_for_each(|message| append_frame(&mut stream, message.as_ref()))?;
    Ok(stream)
}

/// Appends the frame of `message` and a zero to `stream`.
#[cfg(feature = "alloc")]
pub(crate) fn append_frame(stream: &mut Vec<u8>, message: &[u8]) -> Result<(), AllocError> {
    let room = max_encoding_length(message.len()) + 1;
    // In the buffer `zeros`, the byte after the frame stays 0.
    memory::append(stream, room, |zeros| encode(message, zeros) + 1)
}

/// Returns how many bytes are always enough for the stream that [`encode_frames`] makes from these messages. For each
/// message, the number includes [`max_encoding_length`] of the message's length, plus 1 for the zero. Returns `None` if
/// the number doesn't fit a `usize`.
///
/// ```
/// assert_eq!(jcobs::encode_frames_room(["hi", ""]), Some(6));
/// ```
#[cfg(feature = "alloc")]
#[must_use]
pub fn encode_frames_room<I>(messages: I) -> Option<usize>
where
    I: IntoIterator,
    I::Item: AsRef<[u8]>,
{
    messages.into_iter().try_fold(0, |room: usize, message| {
        room.checked_add(max_encoding_length(message.as_ref().len()) + 1)
    })
}
