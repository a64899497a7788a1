// Made by bindings/rust/translate.py from `crates/cobs/src/framed.rt`: change that file, and run it again.
//! A reader that reads frames from any source of bytes.
//!
//! `FrameReader` reads chunks of up to 64 bytes from a `FrameSource`: a file, a socket, a serial port or any other
//! source. A piece consists of the bytes between two zeros. Each call of `next_frame` returns the outcome of one piece,
//! the end of the source, or a fault. The reader reads from the source only if no piece ends in the bytes that it kept
//! from earlier reads. No byte is lost. The bytes after the end of a piece are kept for the next call. Before a fault
//! is returned, all bytes that were read are fed to the decoder. No call of this module allocates. (The rule that a
//! zero ends each piece is from Cheshire and Baker's paper. The Rust crate `cobs` has no such module.)

use crate::proved::dec::{FrameDecoder, PieceEnd};
#[cfg(feature = "std")]
use std::io::Read;

/// The result of a successful call of [`next_frame`](FrameReader::next_frame).
///
/// ```
/// # #[cfg(feature = "std")] {
/// use jcobs::{CobsDecoderHeapless, FrameReader, Next, Recorded};
///
/// let mut source = Recorded::new([3, 7, 0].as_slice());
/// let mut reader = FrameReader::new(CobsDecoderHeapless::<8>::new());
/// assert_eq!(reader.next_frame(&mut source), Ok(Next::Broken(1)));
/// # }
/// ```
#[derive(Debug, Clone, Copy, PartialEq, Eq, Hash)]
#[cfg_attr(feature = "serde", derive(serde::Serialize, serde::Deserialize))]
#[cfg_attr(feature = "defmt", derive(defmt::Format))]
pub enum Next {
    /// A piece ended. It is a frame whose message has this many bytes. The message is at the front of the decoder's
    /// buffer.
    Message(usize),

    /// A piece ended. It breaks off inside a block, and decodes to this many bytes, including those of the broken
    /// block. The decoded bytes are at the front of the decoder's buffer.
    Broken(usize),

    /// A piece ended. It decodes to more bytes than the decoder's buffer has room for.
    TooLong,

    /// The source returned no more bytes, and no piece ended.
    End {
        /// Whether a piece has begun and hasn't ended yet.
        unfinished: bool,
    },
}

/// The reason why a call of `next_frame` failed. No byte is lost: a later call continues after the bytes that were
/// read.
///
/// This example calls `next_frame` again after too many reads, but gives up if a read failed.
///
/// ```
/// use jcobs::{FrameDecoder, FrameReader, FrameSource, Next, ReadFault};
///
/// fn next_or_more<D: FrameDecoder, S: FrameSource>(
///     reader: &mut FrameReader<D>,
///     source: &mut S,
/// ) -> Option<Next> {
///     match reader.next_frame(source) {
///         Ok(next) => Some(next),
///         Err(ReadFault::TooManyReads) => reader.next_frame(source).ok(),
///         Err(ReadFault::Io) => None,
///     }
/// }
/// ```
#[derive(Debug, Clone, Copy, PartialEq, Eq, Hash)]
#[cfg_attr(feature = "serde", derive(serde::Serialize, serde::Deserialize))]
#[cfg_attr(feature = "defmt", derive(defmt::Format))]
pub enum ReadFault {
    /// A read failed. An interrupted read counts as a failed read.
    Io,

    /// The call made 65,536 reads. Each read returned bytes, but no piece ended.
    TooManyReads,
}

/// A source from which the bytes of a stream are read.
///
/// [`FrameReader::next_frame`] panics if a read returns a number above 64.
///
/// ```
/// # #[cfg(feature = "std")] {
/// use jcobs::{FrameSource, Recorded};
///
/// let mut source = Recorded::new([2, 7].as_slice());
/// let mut chunk = [0; 64];
/// assert_eq!(source.read_some(&mut chunk), Some(2));
/// assert!(chunk.starts_with(&[2, 7]));
/// assert_eq!(source.read_some(&mut chunk), Some(0));
/// # }
/// ```
pub trait FrameSource {
    /// Reads bytes of the stream into `chunk`, with one read.
    ///
    /// Returns `Some(n)` if the read succeeded. The first `n` bytes of `chunk` are then the bytes that were read. At
    /// the end of the source, `n` is 0. Returns `None` if the read failed.
    ///
    /// ```
    /// # #[cfg(feature = "std")] {
    /// use jcobs::{FrameSource, Recorded};
    ///
    /// let mut source = Recorded::new([7; 100].as_slice());
    /// let mut chunk = [0; 64];
    /// assert_eq!(source.read_some(&mut chunk), Some(64));
    /// assert_eq!(source.read_some(&mut chunk), Some(36));
    /// # }
    /// ```
    fn read_some(&mut self, chunk: &mut [u8; 64]) -> Option<usize>;
}

/// A source that gets its bytes from a reader of any type that implements `Read`. Each call of `read_some` makes one
/// read, and each error of the reader counts as a failed read.
///
/// ```
/// # #[cfg(feature = "std")] {
/// use jcobs::{CobsDecoderHeapless, FrameReader, Next, Recorded};
///
/// let mut source = Recorded::new([1, 0, 2].as_slice());
/// let mut reader = FrameReader::new(CobsDecoderHeapless::<8>::new());
/// assert_eq!(reader.next_frame(&mut source), Ok(Next::Message(0)));
/// # }
/// ```
#[cfg(feature = "std")]
#[derive(Debug, Clone)]
pub struct Recorded<R> {
    reader: R,
}

#[cfg(feature = "std")]
impl<R: Read> Recorded<R> {
    /// Makes a source that reads from `reader`.
    ///
    /// ```
    /// # #[cfg(feature = "std")] {
    /// use jcobs::{CobsDecoderHeapless, FrameReader, Next, Recorded};
    ///
    /// let mut source = Recorded::new([2, 7, 0].as_slice());
    /// let mut reader = FrameReader::new(CobsDecoderHeapless::<8>::new());
    /// assert_eq!(reader.next_frame(&mut source), Ok(Next::Message(1)));
    /// # }
    /// ```
    pub const fn new(reader: R) -> Self {
        Self { reader }
    }

    /// Returns the reader that was passed to [`new`](Recorded::new), in its state after all reads so far.
    ///
    /// ```
    /// # #[cfg(feature = "std")] {
    /// use jcobs::Recorded;
    ///
    /// let source = Recorded::new([1, 0].as_slice());
    /// assert_eq!(source.into_inner(), [1, 0].as_slice());
    /// # }
    /// ```
    pub fn into_inner(self) -> R {
        let Recorded { reader } = self;
        reader
    }
}

#[cfg(feature = "std")]
impl<R: Read> FrameSource for Recorded<R> {
    fn read_some(&mut self, chunk: &mut [u8; 64]) -> Option<usize> {
        match self.reader.read(chunk) {
            Ok(n) => Some(n),
            Err(_) => None,
        }
    }
}

/// Converts a `PieceEnd` to the variant of `Next` with the same name.
fn next_at(end: PieceEnd) -> Next {
    match end {
        PieceEnd::Message(n) => Next::Message(n),
        PieceEnd::Broken(count) => Next::Broken(count),
        PieceEnd::TooLong => Next::TooLong,
    }
}

/// Returns whether a piece is unfinished after `bytes`. `before` says whether a piece was unfinished before `bytes`.
fn is_unfinished(before: bool, bytes: &[u8]) -> bool {
    match bytes {
        [] => before,
        [.., last] => *last != 0,
    }
}

/// The greatest number of reads that one call of `next_frame` makes. Because of this limit, every call ends, even if no
/// piece ends.
const MOST_READS: usize = 65536;

/// Reads a stream, and decodes it with a decoder that the reader owns. Each call of `next_frame` reads one piece.
///
/// The source isn't part of the reader: the caller passes a source to each call, so a stream may continue in another
/// source.
///
/// ```
/// # #[cfg(feature = "std")] {
/// use jcobs::{CobsDecoderHeapless, FrameReader, Next, Recorded};
///
/// let mut source = Recorded::new(b"\x06hello\0\x03h".as_slice());
/// let mut reader = FrameReader::new(CobsDecoderHeapless::<8>::new());
/// assert_eq!(reader.next_frame(&mut source), Ok(Next::Message(5)));
/// assert!(reader.decoder().dest().starts_with(b"hello"));
/// # }
/// ```
#[derive(Debug, Clone)]
pub struct FrameReader<D: FrameDecoder> {
    decoder: D,

    /// The bytes of an earlier read. The bytes at the indices from `start` to `end - 1` haven't been fed to the decoder
    /// yet.
    chunk: [u8; 64],
    start: usize,
    end: usize,

    /// Whether a piece has begun and hasn't ended yet. Once a byte has been fed, this is true if and only if the last
    /// byte that was fed isn't a zero.
    unfinished: bool,
}

impl<D: FrameDecoder> FrameReader<D> {
    /// Makes a reader that decodes with `decoder`, and that has read nothing yet.
    ///
    /// The decoder should be idle. A decoder is idle when it is new, after each reset, and after each zero. If the decoder
    /// isn't idle, the first outcome is that of the piece that the decoder has begun.
    ///
    /// ```
    /// # #[cfg(feature = "std")] {
    /// use jcobs::{CobsDecoderHeapless, FrameReader, Next, Recorded};
    ///
    /// let mut source = Recorded::new(b"".as_slice());
    /// let mut reader = FrameReader::new(CobsDecoderHeapless::<8>::new());
    /// let end = Next::End { unfinished: false };
    /// assert_eq!(reader.next_frame(&mut source), Ok(end));
    /// # }
    /// ```
    pub const fn new(decoder: D) -> Self {
        FrameReader {
            decoder,
            chunk: [0; 64],
            start: 0,
            end: 0,
            unfinished: false,
        }
    }

    /// Returns the decoder. After `next_frame` has returned `Next::Message(n)`, the message is the first `n` bytes of
    /// the decoder's buffer.
    ///
    /// ```
    /// use jcobs::{CobsDecoderHeapless, FrameReader};
    ///
    /// let reader = FrameReader::new(CobsDecoderHeapless::<2>::new());
    /// assert_eq!(reader.decoder().dest(), [0, 0].as_slice());
    /// ```
    pub const fn decoder(&self) -> &D {
        &self.decoder
    }

    /// Feeds `bytes` to the decoder until a piece ends. Returns the outcome of this piece and the number of bytes
    /// consumed, or `None` if no piece ended.
    fn feed_through_end(&mut self, bytes: &[u8]) -> Option<(Next, usize)> {
        match self.decoder.feed_piece(bytes) {
            None => {
                self.unfinished = is_unfinished(self.unfinished, bytes);
                None
            }
            Some((end, count)) => {
                self.unfinished = false;
                Some((next_at(end), count))
            }
        }
    }

    /// Decodes the stream up to the zero that ends the next piece, and returns the outcome of this piece. Returns
    /// `Next::End` if the source ends before such a zero.
    ///
    /// The call first uses the bytes that earlier calls have kept. If no piece ends in these bytes, the call makes up
    /// to 65,536 reads from the source. The call stops after the first read that fails, that returns no bytes, or that
    /// returns the zero at the end of a piece. The bytes after the end of the piece are kept for the next call. After
    /// `Next::End` the stream may continue, in this source or in another one.
    ///
    /// # Errors
    /// - `Io` if the last read of this call failed.
    /// - `TooManyReads` if this call made 65,536 reads that all returned bytes.
    ///
    /// In both cases no piece ended in this call. All bytes that were read have been fed to the decoder, and the next
    /// call continues after these bytes.
    ///
    /// ```
    /// # #[cfg(feature = "std")] {
    /// use jcobs::{CobsDecoderHeapless, FrameReader, Next, Recorded};
    ///
    /// let mut reader = FrameReader::new(CobsDecoderHeapless::<8>::new());
    /// let mut first = Recorded::new([2].as_slice());
    /// let end = reader.next_frame(&mut first);
    /// assert_eq!(end, Ok(Next::End { unfinished: true }));
    /// let mut second = Recorded::new([7, 0].as_slice());
    /// assert_eq!(reader.next_frame(&mut second), Ok(Next::Message(1)));
    /// # }
    /// ```
    pub fn next_frame<S: FrameSource>(&mut self, source: &mut S) -> Result<Next, ReadFault> {
        // The bytes are copied, because `feed_through_end` borrows the whole reader.
        let kept = self.chunk;
        if let Some((next, count)) = self.feed_through_end(&kept[self.start..self.end]) {
            self.start += count;
            return Ok(next);
        }
        self.start = self.end;
        let mut chunk = [0; 64];
        for _read in 0..MOST_READS {
            match source.read_some(&mut chunk) {
                None => return Err(ReadFault::Io),
                Some(0) => {
                    return Ok(Next::End {
                        unfinished: self.unfinished,
                    });
                }
                Some(n) => {
                    if let Some((next, count)) = self.feed_through_end(&chunk[..n]) {
                        self.chunk = chunk;
                        self.start = count;
                        self.end = n;
                        return Ok(next);
                    }
                }
            }
        }
        Err(ReadFault::TooManyReads)
    }
}
