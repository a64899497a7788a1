// Made by bindings/rust/translate.py from `crates/cobs/src/lib.rt`: change that file, and run it again.
//! Consistent Overhead Byte Stuffing (COBS), with calls modelled on those of the Rust crate `cobs` 0.5.1.

pub(crate) mod block;
pub(crate) mod dec;
pub(crate) mod enc;
pub(crate) mod error;
pub(crate) mod framed;
pub(crate) mod slices;
pub(crate) mod stream;

pub use dec::{
    DecodeResult, DecoderState, FrameDecoder, FrameKind, PieceEnd, UnbufferedDecoder, decode,
    decode_first, decode_in_place, decode_in_place_report, decode_in_place_with_sentinel,
    decode_with_sentinel, frame_kind,
};
pub use enc::{
    EncoderState, PushResult, UnbufferedEncoder, encode, encode_in_place, try_encode,
    try_encode_including_sentinels, try_encode_with_sentinel,
};
pub use error::{DecodeError, DecodeReport, DestBufTooSmallError, PushError};
#[cfg(feature = "std")]
pub use framed::Recorded;
pub use framed::{FrameReader, FrameSource, Next, ReadFault};
pub use slices::xor_bytes;
#[cfg(feature = "alloc")]
pub use stream::{FrameOutcome, decode_stream};

/// Returns the greatest overhead, in bytes, that an encoded frame can have if its message has `source_len` bytes. The
/// overhead of a frame is its length minus the length of its message.
///
/// The greatest overhead is `source_len / 254`, rounded up, or 1 if the message is empty. A message without zeros has
/// this overhead, because its frame has one code for every 254 bytes, and one code for the remaining bytes, if any. The
/// frame of the empty message has one code. Sentinels before and after the frame aren't counted. The bound is from the
/// paper by Cheshire and Baker.
pub const fn max_encoding_overhead(source_len: usize) -> usize {
    if source_len == 0 {
        return 1;
    }
    source_len.div_ceil(254)
}

/// Returns the length, in bytes, of the longest encoded frame that a message of `source_len` bytes can have. A buffer
/// of this length has room for the frame of any message of `source_len` bytes. Sentinels aren't counted.
///
/// Precondition: the length of the longest frame fits a `usize`. This is true for every `source_len` up to
/// `isize::MAX`.
pub const fn max_encoding_length(source_len: usize) -> usize {
    source_len + max_encoding_overhead(source_len)
}
