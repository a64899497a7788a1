//! Defines three streaming decoders. They decode the frames of a stream to messages, one frame after another.
//!
//! The three decoders differ in who owns the buffer.

use crate::ArrayVec;
use crate::access::Access;
use crate::dec::{DecodeError, DecodeReport, FrameDecoder, PieceEnd, UnbufferedDecoder};

/// The part that the three decoders have in common: everything except the buffer.
#[derive(Debug, Clone)]
struct Progress {
    decoder: UnbufferedDecoder,
    /// How many bytes the last call consumed.
    parsed_size: usize,
}

impl Progress {
    const START: Self = Self {
        decoder: UnbufferedDecoder::new(),
        parsed_size: 0,
    };

    #[inline]
    fn push(&mut self, dest: &mut [u8], data: &[u8]) -> Result<Option<DecodeReport>, DecodeError> {
        let ended = self.decoder.feed_piece(dest, data);
        self.parsed_size = ended.map_or(data.len(), |(_, taken)| taken);
        match ended {
            Some((end, parsed_size)) => Ok(Some(DecodeReport {
                parsed_size,
                frame_size: end.into_result()?,
            })),
            None if self.decoder.too_long != 0 && !data.is_empty() => {
                Err(DecodeError::TargetBufTooSmall)
            }
            None => Ok(None),
        }
    }

    #[inline]
    fn feed(&mut self, dest: &mut [u8], data: u8) -> Result<Option<usize>, DecodeError> {
        self.parsed_size = 1;
        self.decoder.feed(dest, data)
    }
}

/// Defines the methods that all three decoders have. The methods use the decoder's fields `dest` and `progress`.
macro_rules! decoder_methods {
    () => {
        /// Decodes the next byte of a stream in which a zero ends each frame.
        ///
        /// - `Ok(None)`: no frame has ended.
        /// - `Ok(Some(n))`: a frame has ended, and its message is the first `n` bytes of [`dest`](Self::dest).
        ///
        /// # Errors
        ///
        /// - [`DecodeError::InvalidFrame`]: the byte is a zero inside a block. The next nonzero byte begins a new
        ///   frame.
        /// - [`DecodeError::TargetBufTooSmall`]: the message is longer than the buffer. `feed` returns this error for
        ///   the first byte that doesn't fit, and for each later byte up to and including the zero that ends the frame.
        #[inline]
        pub fn feed(&mut self, data: u8) -> Result<Option<usize>, DecodeError> {
            self.progress.feed(&mut self.dest[..], data)
        }

        /// Decodes the next bytes of a stream of frames, up to and including the first zero that ends a frame. The
        /// bytes after this zero have no effect: push them next. If no frame ends in `data`, the call decodes all bytes
        /// of `data`.
        ///
        /// - `Ok(None)`: all bytes were decoded, and no frame has ended.
        /// - `Ok(Some(report))`: a frame has ended. The call has consumed [`parsed_size`](DecodeReport::parsed_size)
        ///   bytes, and the message is the first [`frame_size`](DecodeReport::frame_size) bytes of
        ///   [`dest`](Self::dest).
        ///
        /// # Errors
        ///
        /// - [`DecodeError::InvalidFrame`]: the frame breaks off inside a block. The call has consumed the bytes up to
        ///   and including the zero that ends the frame.
        /// - [`DecodeError::TargetBufTooSmall`]: the message is longer than the buffer. The push with the first byte
        ///   that doesn't fit returns this error. So does each later push that isn't empty, until a push contains the
        ///   zero that ends the frame. This last push returns the error too, and consumes the bytes up to and including
        ///   the zero. Each earlier push consumes all its bytes.
        ///
        /// After an error, continue with the bytes from index [`parsed_size`](Self::parsed_size) on. If you do, a
        /// broken frame never affects another frame.
        #[inline]
        pub fn push(&mut self, data: &[u8]) -> Result<Option<DecodeReport>, DecodeError> {
            self.progress.push(&mut self.dest[..], data)
        }

        /// Returns how many bytes the last [`push`](Self::push) or [`feed`](Self::feed) consumed, even if it returned
        /// an error. Returns 0 before the first `push` or `feed`. The crate `cobs` doesn't have this call.
        #[inline]
        #[must_use]
        pub const fn parsed_size(&self) -> usize {
            self.progress.parsed_size
        }

        /// Returns the buffer to which messages are decoded.
        #[inline]
        #[must_use]
        pub fn dest(&self) -> &[u8] {
            &self.dest[..]
        }

        /// Returns the buffer to which messages are decoded, as a mutable slice.
        ///
        /// You may change the buffer between two frames. If you change the buffer after a frame has begun and before
        /// it has ended, the result of this frame and the contents of the buffer are unspecified.
        #[inline]
        pub fn dest_mut(&mut self) -> &mut [u8] {
            &mut self.dest[..]
        }
    };
}

/// Defines `reset`, for the decoders that have this method.
macro_rules! decoder_reset {
    () => {
        /// Resets the decoder to its initial state, in which no frame has begun. The buffer and
        /// [`parsed_size`](Self::parsed_size) stay as they are. If a frame had begun, the bytes of this frame that
        /// arrive later are taken for a new frame.
        #[inline]
        pub fn reset(&mut self) {
            self.progress.decoder.reset();
        }
    };
}

/// Implements [`FrameDecoder`], the trait that readers of streams use, for a decoder.
macro_rules! frame_decoder {
    ($decoder:ty, $($generics:tt)*) => {
        impl $($generics)* FrameDecoder for $decoder {
            #[inline]
            fn feed_byte(&mut self, byte: u8) -> Result<Option<usize>, DecodeError> {
                self.feed(byte)
            }

            #[inline]
            fn feed_piece(&mut self, stream: &[u8]) -> Option<(PieceEnd, usize)> {
                self.progress.decoder.feed_piece(&mut self.dest[..], stream)
            }

            #[inline]
            fn buffer(&self) -> &[u8] {
                self.dest()
            }
        }
    };
}

/// A streaming decoder whose buffer is a slice.
///
/// ```
/// let mut dest = [0; 8];
/// let mut decoder = jcobs::CobsDecoder::new(&mut dest);
/// assert_eq!(decoder.push(b"\x03h")?, None);
/// let report = decoder.push(b"i\0\x02x\0")?.expect("a message");
/// assert_eq!(report.parsed_size(), 2);
/// assert_eq!(decoder.dest()[..report.frame_size()], *b"hi");
/// # Ok::<(), jcobs::DecodeError>(())
/// ```
#[derive(Debug)]
pub struct CobsDecoder<'a> {
    dest: &'a mut [u8],
    progress: Progress,
}

impl<'a> CobsDecoder<'a> {
    /// Makes a decoder that writes each message to the front of `dest`.
    #[inline]
    #[must_use]
    pub const fn new(dest: &'a mut [u8]) -> CobsDecoder<'a> {
        CobsDecoder {
            dest,
            progress: Progress::START,
        }
    }

    decoder_methods!();
}

frame_decoder!(CobsDecoder<'_>,);

/// A streaming decoder that contains its buffer, an array of `N` bytes.
///
/// ```
/// let mut decoder = jcobs::CobsDecoderHeapless::<8>::new();
/// assert_eq!(decoder.feed(2)?, None);
/// assert_eq!(decoder.feed(b'x')?, None);
/// assert_eq!(decoder.feed(0)?, Some(1));
/// assert_eq!(decoder.dest()[..1], *b"x");
/// # Ok::<(), jcobs::DecodeError>(())
/// ```
#[derive(Debug, Clone)]
pub struct CobsDecoderHeapless<const N: usize> {
    dest: [u8; N],
    progress: Progress,
}

impl<const N: usize> CobsDecoderHeapless<N> {
    /// Makes a decoder with a buffer of zeros.
    #[inline]
    #[must_use]
    pub const fn new() -> Self {
        Self {
            dest: [0; N],
            progress: Progress::START,
        }
    }

    /// Makes a decoder whose buffer holds the bytes of `vec`, followed by zeros. `vec` can be an array of `N` bytes or
    /// an [`ArrayVec`]. With the feature `heapless`, it can also be a `heapless::Vec`.
    ///
    /// ```
    /// let decoder = jcobs::CobsDecoderHeapless::new_with_vec([7; 3]);
    /// assert_eq!(decoder.dest(), [7; 3]);
    /// ```
    #[must_use]
    pub fn new_with_vec(vec: impl Into<ArrayVec<N>>) -> Self {
        let vec = vec.into();
        let mut decoder = Self::new();
        let bytes = vec.as_slice();
        decoder.dest.part_mut(..bytes.len()).copy_from(bytes);
        decoder
    }

    decoder_methods!();
    decoder_reset!();
}

frame_decoder!(CobsDecoderHeapless<N>, <const N: usize>);

impl<const N: usize> Default for CobsDecoderHeapless<N> {
    /// Calls [`new`](Self::new).
    fn default() -> Self {
        Self::new()
    }
}

/// A streaming decoder that owns its buffer. `new` allocates the buffer. Pushes don't allocate memory.
///
/// ```
/// let mut decoder = jcobs::CobsDecoderOwned::new(4);
/// let stream = b"\x06hello\0\x03hi\0";
/// assert_eq!(decoder.push(stream), Err(jcobs::DecodeError::TargetBufTooSmall));
/// let rest = &stream[decoder.parsed_size()..];
/// assert_eq!(decoder.push(rest)?.map(|report| report.frame_size()), Some(2));
/// # Ok::<(), jcobs::DecodeError>(())
/// ```
#[cfg(feature = "alloc")]
#[derive(Debug, Clone)]
pub struct CobsDecoderOwned {
    dest: alloc::boxed::Box<[u8]>,
    progress: Progress,
}

#[cfg(feature = "alloc")]
impl CobsDecoderOwned {
    /// Makes a decoder with a buffer of `dest_buf_size` zeros.
    ///
    /// # Panics
    ///
    /// Panics if `dest_buf_size` is greater than `isize::MAX`.
    #[must_use]
    pub fn new(dest_buf_size: usize) -> Self {
        Self {
            dest: alloc::vec![0; dest_buf_size].into_boxed_slice(),
            progress: Progress::START,
        }
    }

    decoder_methods!();
    decoder_reset!();
}

#[cfg(feature = "alloc")]
frame_decoder!(CobsDecoderOwned,);
