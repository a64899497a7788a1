//! Tests that this crate has each name of `cobs` 0.5.1 with its signature: otherwise this file wouldn't compile.
#![cfg(feature = "alloc")]
#![allow(deprecated, clippy::type_complexity)]

use std::error::Error;
use std::fmt::{Debug, Display};
use std::hash::Hash;

use jcobs::{
    AllocError, CobsDecoder, CobsDecoderHeapless, CobsDecoderOwned, CobsEncoder, DecodeError,
    DecodeReport, DecodeResult, DecoderState, DecodingResult, DestBufTooSmallError, EncoderState,
    FrameKind, FrameOutcome, FrameReader, Next, PieceEnd, PushError, PushResult, ReadFault,
    UnbufferedDecoder, UnbufferedEncoder,
};

const LENGTHS: [fn(usize) -> usize; 2] = [jcobs::max_encoding_overhead, jcobs::max_encoding_length];
const ROOM: [u8; jcobs::max_encoding_length(254)] = [0; jcobs::max_encoding_overhead(254) + 254];

const fn borrowed(dest: &mut [u8]) -> CobsDecoder<'_> {
    CobsDecoder::new(dest)
}

type Fallible = Result<usize, DestBufTooSmallError>;
type Decoded = Result<usize, DecodeError>;
type Reported = Result<DecodeReport, DecodeError>;
type Fed = Result<Option<usize>, DecodeError>;
type Pushed = Result<Option<DecodeReport>, DecodeError>;

#[test]
fn functions() {
    let _: [fn(&[u8], &mut [u8]) -> usize; 2] = [jcobs::encode, jcobs::encode_including_sentinels];
    let _: [fn(&[u8], &mut [u8]) -> Fallible; 2] =
        [jcobs::try_encode, jcobs::try_encode_including_sentinels];
    let _: fn(&[u8], &mut [u8], u8) -> usize = jcobs::encode_with_sentinel;
    let _: [fn(&[u8]) -> Vec<u8>; 2] = [jcobs::encode_vec, jcobs::encode_vec_including_sentinels];
    let _: fn(&[u8], u8) -> Vec<u8> = jcobs::encode_vec_with_sentinel;

    let _: fn(&[u8], &mut [u8]) -> Reported = jcobs::decode;
    let _: fn(&mut [u8]) -> Decoded = jcobs::decode_in_place;
    let _: fn(&mut [u8]) -> Reported = jcobs::decode_in_place_report;
    let _: fn(&[u8], &mut [u8], u8) -> Decoded = jcobs::decode_with_sentinel;
    let _: fn(&mut [u8], u8) -> Decoded = jcobs::decode_in_place_with_sentinel;
    let _: fn(&[u8]) -> Result<Vec<u8>, DecodeError> = jcobs::decode_vec;
    let _: fn(&[u8], u8) -> Result<Vec<u8>, DecodeError> = jcobs::decode_vec_with_sentinel;

    assert_eq!(LENGTHS.map(|of| of(254)), [1, ROOM.len()]);
}

#[test]
fn encoders() {
    fn new(out_buf: &mut [u8]) -> CobsEncoder<'_> {
        CobsEncoder::new(out_buf)
    }
    let _ = new;
    let _: fn(&mut CobsEncoder<'static>, &[u8]) -> Result<(), DestBufTooSmallError> =
        CobsEncoder::push;
    let _: fn(CobsEncoder<'static>) -> usize = CobsEncoder::finalize;
    let _: fn(&mut EncoderState, u8) -> PushResult = EncoderState::push;
    let _: fn(EncoderState) -> (usize, u8) = EncoderState::finalize;
}

/// Checks the methods of a decoder's type.
macro_rules! decoder {
    ($decoder:ty) => {
        let _: fn(&mut $decoder, u8) -> Fed = <$decoder>::feed;
        let _: fn(&mut $decoder, &[u8]) -> Pushed = <$decoder>::push;
        let _: for<'b> fn(&'b $decoder) -> &'b [u8] = <$decoder>::dest;
        let _: for<'b> fn(&'b mut $decoder) -> &'b mut [u8] = <$decoder>::dest_mut;
    };
}

#[test]
fn decoders() {
    let _ = borrowed;
    decoder!(CobsDecoder<'static>);
    decoder!(CobsDecoderHeapless<4>);
    decoder!(CobsDecoderOwned);
    let _: fn(usize) -> CobsDecoderOwned = CobsDecoderOwned::new;
    let _: fn() -> CobsDecoderHeapless<4> = CobsDecoderHeapless::new;
    let _: fn([u8; 4]) -> CobsDecoderHeapless<4> = CobsDecoderHeapless::new_with_vec;
    let _: fn(&mut CobsDecoderOwned) = CobsDecoderOwned::reset;
    let _: fn(&mut CobsDecoderHeapless<4>) = CobsDecoderHeapless::reset;
    let _: fn(&mut DecoderState, u8) -> Result<DecodeResult, DecodeError> = DecoderState::feed;
    let _: [fn(&DecodingResult) -> usize; 2] =
        [DecodeReport::parsed_size, DecodeReport::frame_size];
}

/// Calls that make a coder or copy plain values can be used in constants and statics.
#[cfg(feature = "std")]
#[test]
fn constants() {
    use jcobs::{Frames, MessageWriter, Recorded, frames};
    use std::sync::Mutex;

    static SENDER: Mutex<MessageWriter<Vec<u8>>> = Mutex::new(MessageWriter::new(Vec::new()));
    static READER: Mutex<FrameReader<CobsDecoderHeapless<8>>> =
        Mutex::new(FrameReader::new(CobsDecoderHeapless::new()));
    const DECODER: UnbufferedDecoder = UnbufferedDecoder::new();
    const ENCODER: UnbufferedEncoder = UnbufferedEncoder::new();
    const FRAMES: Frames<'_> = frames(b"\x02x\0y");
    const fn encoder(dest: &mut [u8]) -> CobsEncoder<'_> {
        CobsEncoder::new(dest)
    }

    SENDER.lock().unwrap().write_message(b"hi").unwrap();
    assert_eq!(SENDER.lock().unwrap().get_ref(), b"\x03hi\0");
    let next = READER
        .lock()
        .unwrap()
        .next_frame(&mut Recorded::new(&b"\x02x\0"[..]));
    assert_eq!(next, Ok(Next::Message(1)));
    assert!(DECODER.is_idle());
    assert_eq!((ENCODER.index, ENCODER.taken, ENCODER.full), (0, 0, 0));
    assert_eq!(FRAMES.remainder(), b"\x02x\0y");
    assert_eq!(encoder(&mut [0]).finalize(), 1);
}

#[test]
fn traits() {
    fn error<T: Error + Display + Debug + Eq + Send + Sync + 'static>() {}
    fn debug<T: Debug + Send + Sync>() {}
    fn copy<T: Debug + Copy + Eq + Hash>() {}
    fn clone<T: Debug + Clone + Send + Sync>() {}
    error::<DestBufTooSmallError>();
    error::<DecodeError>();
    error::<ReadFault>();
    copy::<(DestBufTooSmallError, DecodeError, ReadFault, DecodeReport)>();
    copy::<(PushResult, DecodeResult, FrameKind, PieceEnd, Next)>();
    copy::<(PushError, AllocError)>();
    copy::<(UnbufferedDecoder, UnbufferedEncoder)>();
    clone::<(CobsDecoderOwned, CobsDecoderHeapless<4>, FrameOutcome)>();
    clone::<FrameReader<CobsDecoderHeapless<4>>>();
    debug::<CobsEncoder<'_>>();
    debug::<CobsDecoder<'_>>();
    debug::<CobsDecoderOwned>();
    debug::<CobsDecoderHeapless<4>>();
    debug::<DecodeResult>();
    let _ = (
        EncoderState::default().clone(),
        DecoderState::default(),
        CobsDecoderHeapless::<4>::default(),
        UnbufferedDecoder::default(),
        UnbufferedEncoder::default(),
    );
}
