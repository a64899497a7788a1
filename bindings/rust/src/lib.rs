//! Encodes and decodes Consistent Overhead Byte Stuffing (COBS) with code that is translated from proved code. This
//! crate has all calls of the crate `cobs` 0.5.1, with the same names and signatures. The only exception is
//! [`CobsDecoderHeapless::new_with_vec`]: its parameter has another type.
//!
//! COBS encodes a message, which may be any bytes, as a frame that never contains a certain byte value: the sentinel.
//! So the sentinel, usually 0, can mark the end of each frame on a serial line or in a file. The frame of a message of
//! up to 254 bytes is 1 byte longer than the message. The frame of a longer message has at most 1 extra byte per 254
//! bytes of the message, rounded up.
//!
//! # Switching from `cobs`
//!
//! Change one line of `Cargo.toml`:
//!
//! ```toml
//! [dependencies]
//! cobs = { package = "jcobs", path = "../jirompeka/bindings/rust" }
//! ```
//!
//! # Example
//!
//! ```
//! # #[cfg(feature = "alloc")] {
//! let frame = jcobs::encode_vec(b"hello");
//! assert_eq!(frame, b"\x06hello");
//! assert_eq!(jcobs::decode_vec(&frame)?, b"hello");
//! # }
//! # Ok::<(), jcobs::DecodeError>(())
//! ```
//!
//! A streaming decoder decodes the bytes of a serial line as they arrive, in chunks of any size:
//!
//! ```
//! # #[cfg(feature = "alloc")] {
//! let mut decoder = jcobs::CobsDecoderOwned::new(64);
//! let mut messages = Vec::new();
//! for chunk in [&b"\x06hel"[..], b"lo\0\x03h", b"i\0"] {
//!     let mut rest = chunk;
//!     while !rest.is_empty() {
//!         if let Ok(Some(report)) = decoder.push(rest) {
//!             messages.push(decoder.dest()[..report.frame_size()].to_vec());
//!         }
//!         rest = &rest[decoder.parsed_size()..];
//!     }
//! }
//! assert_eq!(messages, [&b"hello"[..], b"hi"]);
//! # }
//! ```
//!
//! [`MessageReader`] reads messages from a port, a socket or a file, and [`MessageWriter`] writes them:
//!
//! ```
//! # #[cfg(feature = "std")] {
//! use jcobs::{MessageReader, MessageWriter};
//!
//! let mut port = MessageWriter::new(Vec::new());
//! port.write_message(b"hello")?;
//!
//! let line = port.into_inner();
//! let mut port = MessageReader::new(&line[..], 64);
//! assert_eq!(port.read_message()?, Some(Ok(&b"hello"[..])));
//! assert_eq!(port.read_message()?, None);
//! # }
//! # Ok::<(), Box<dyn std::error::Error>>(())
//! ```
//!
//! # Which call to use
//!
//! | a program has | it calls |
//! |---|---|
//! | a message | [`encode`] to write the frame to a slice; [`try_encode`] if the frame may not fit the slice; [`encode_vec`] to make a vector; [`encode_in_place`] to encode in the message's own buffer; [`encode_with_sentinel`] for any sentinel |
//! | a message in chunks | [`CobsEncoder`]; [`UnbufferedEncoder`], whose buffer is passed to each call; [`EncoderState`], if the program has a container of its own for the frame |
//! | a frame | [`decode`], [`decode_vec`] or [`decode_in_place`]; [`decode_with_sentinel`] for any sentinel; [`frame_kind`] to check the frame |
//! | bytes from a line, an interrupt or a channel | [`CobsDecoder`], whose buffer is a slice; [`CobsDecoderHeapless`], which contains its buffer; [`CobsDecoderOwned`], which allocates its buffer; [`UnbufferedDecoder`], whose buffer is passed to each call |
//! | a [`Read`](std::io::Read) or a [`Write`](std::io::Write) | [`MessageReader`] or [`MessageWriter`] |
//! | a stream or a sink of tokio | `MessageCodec`, with the feature `tokio-util` |
//! | another source, without `std` | [`FrameReader`] over a [`FrameSource`] |
//! | a recorded stream | [`frames`], [`decode_stream_in_place`], [`decode_stream`] |
//! | messages to record as a stream | [`encode_frames`] |
//! | the length of a message, and needs a buffer for the frame | [`max_encoding_length`] |
//!
//! The folder `bindings/rust/examples` of the repository has three examples: messages over a line with tokio, messages
//! over a port of embedded-io, and a receiver whose bytes arrive in an interrupt handler.
//!
//! # What is proved
//!
//! The functions of `src/proved/` are translated from the crate `cobs` in Rattle, which is Rust with contracts. For a
//! `usize` of 64 bits, each of these functions is proved in Rattle to end without a panic, and to return the right
//! result. The other files of `src/` are tested, not proved. They define the calls with the signatures of the crate
//! `cobs`, and add the types for `std::io` and tokio. Memory safety depends on rustc, and with the feature `fast` on
//! `memchr`: this crate has no `unsafe` code.
//!
//! # Features
//!
//! - With `fast` (default), more than 16 bytes are searched by the crate `memchr` and copied as slices. Without it the
//!   calls step from byte to byte, which needs less flash and more time. The results are the same.
//! - `std` (default) turns on the feature `alloc`, and adds [`MessageReader`], [`MessageWriter`] and [`Recorded`].
//!   `Recorded` is a [`FrameSource`] over any [`std::io::Read`]. With `std`, `memchr` uses AVX2 if the processor has
//!   it.
//! - `alloc` adds the calls that return a `Vec`, [`encode_frames_room`], [`FrameOutcome`], and [`CobsDecoderOwned`].
//! - `serde` derives the traits of the crate `serde`, and `defmt` those of the crate `defmt`. The types with these
//!   traits are the errors ([`DecodeError`], [`DestBufTooSmallError`], [`PushError`], [`ReadFault`], [`AllocError`]),
//!   [`DecodeReport`], [`PieceEnd`], [`Next`], [`FrameKind`] and `FrameOutcome`.
//! - With `heapless`, [`CobsDecoderHeapless::new_with_vec`] accepts a `heapless::Vec`.
//! - `tokio-util` turns on the feature `std`, and adds `MessageCodec`, a codec for streams and sinks of tokio.
//!
//! With `default-features = false`, the crate needs neither `std` nor an allocator nor another crate, and each call
//! needs a few hundred bytes of flash.
#![no_std]
#![forbid(unsafe_code)]
// With `doc_cfg` the pages of docs.rs say which feature an item needs.
#![cfg_attr(docsrs, feature(doc_cfg))]
// Links to what a missing feature would add stay text. With `std`, each link is checked.
#![cfg_attr(not(feature = "std"), allow(rustdoc::broken_intra_doc_links))]

#[cfg(feature = "alloc")]
extern crate alloc;
#[cfg(feature = "std")]
extern crate std;

mod access;
mod array_vec;
#[cfg(feature = "tokio-util")]
mod codec;
mod dec;
mod enc;
mod frames;
mod memory;
#[allow(
    unused_imports,
    reason = "mod.rs exports what the crate in Rattle exports, and without some feature not every import is used"
)]
#[allow(
    clippy::absurd_extreme_comparisons,
    clippy::len_zero,
    clippy::manual_ok_err,
    clippy::manual_range_contains,
    clippy::manual_unwrap_or,
    clippy::manual_unwrap_or_default,
    clippy::needless_range_loop,
    reason = "these are the proved bodies, which aren't changed for a lint"
)]
mod proved;
#[cfg(feature = "std")]
mod read;
mod search;
#[cfg(feature = "std")]
mod write;

pub use crate::array_vec::ArrayVec;
#[cfg(feature = "tokio-util")]
pub use crate::codec::MessageCodec;
pub use crate::dec::*;
pub use crate::enc::*;
pub use crate::frames::{DecodeStreamInPlace, Frames, decode_stream_in_place, frames};
#[cfg(feature = "alloc")]
pub use crate::frames::{encode_frames, encode_frames_room};
pub use crate::memory::AllocError;
#[cfg(feature = "std")]
pub use crate::proved::Recorded;
#[cfg(feature = "alloc")]
pub use crate::proved::{FrameOutcome, decode_stream};
pub use crate::proved::{FrameReader, FrameSource, Next};
#[cfg(feature = "std")]
pub use crate::read::MessageReader;
#[cfg(feature = "std")]
pub use crate::write::MessageWriter;

/// Returns the greatest number of bytes that encoding adds to a message of `source_len` bytes, not counting sentinels.
/// This number is `source_len / 254`, rounded up, or 1 for the empty message.
///
/// ```
/// assert_eq!(jcobs::max_encoding_overhead(0), 1);
/// assert_eq!(jcobs::max_encoding_overhead(254), 1);
/// assert_eq!(jcobs::max_encoding_overhead(255), 2);
/// ```
#[inline]
#[must_use]
pub const fn max_encoding_overhead(source_len: usize) -> usize {
    proved::max_encoding_overhead(source_len)
}

/// Returns the greatest length that the frame of a message of `source_len` bytes can have, not counting sentinels. A
/// buffer of this length is always long enough for the frame. Each sentinel needs one more byte.
///
/// ```
/// const ROOM: usize = jcobs::max_encoding_length(1000);
/// assert_eq!(ROOM, 1004);
/// ```
///
/// # Panics
///
/// Panics if the length doesn't fit a `usize`. The length of a slice is never great enough to cause this panic.
#[inline]
#[must_use]
pub const fn max_encoding_length(source_len: usize) -> usize {
    let length = source_len.checked_add(max_encoding_overhead(source_len));
    assert!(
        length.is_some(),
        "max_encoding_length: the length fits a usize"
    );
    proved::max_encoding_length(source_len)
}

/// The examples of README.md are tests too.
#[cfg(all(doctest, feature = "std"))]
#[doc = include_str!("../README.md")]
struct Readme;

#[cfg(test)]
mod tests {
    #[test]
    #[should_panic = "the length fits a usize"]
    fn greatest_length_that_does_not_fit() {
        let _ = crate::max_encoding_length(usize::MAX);
    }
}
