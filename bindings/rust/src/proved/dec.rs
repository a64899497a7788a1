// Made by bindings/rust/translate.py from `crates/cobs/src/dec.rt`: change that file, and run it again.
//! Decoding: from frames to messages.

pub(crate) mod forms;
pub(crate) mod frame_decoder;
pub(crate) mod in_place;
pub(crate) mod kind;
pub(crate) mod run;
pub(crate) mod state;
pub(crate) mod unbuffered;
pub(crate) mod whole;

pub use forms::decode_with_sentinel;
pub use frame_decoder::{FrameDecoder, PieceEnd};
pub use in_place::{decode_in_place, decode_in_place_report, decode_in_place_with_sentinel};
pub use kind::{FrameKind, frame_kind};
pub use state::{DecodeResult, DecoderState};
pub use unbuffered::UnbufferedDecoder;
pub use whole::{decode, decode_first};
