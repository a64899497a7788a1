//! Exports calls of the crate for `run.mjs`, over two buffers that JavaScript reads and writes.
//!
//! A result is a length, or a negative number: -1 if the buffer is too small, -2 if there is no frame, and -3 - n for a
//! frame that breaks off after n bytes.
#![no_std]

use core::cell::UnsafeCell;

use jcobs::{DecodeError, DestBufTooSmallError, PieceEnd, UnbufferedDecoder, UnbufferedEncoder};

const ROOM: usize = 4096;

/// A value that only this module's one thread uses, in one call at a time.
struct Shared<T>(UnsafeCell<T>);

// SAFETY: there is one thread.
unsafe impl<T> Sync for Shared<T> {}

impl<T> Shared<T> {
    /// # Safety
    ///
    /// No other reference to it is used meanwhile.
    #[allow(clippy::mut_from_ref)]
    unsafe fn get(&self) -> &mut T {
        unsafe { &mut *self.0.get() }
    }
}

static SOURCE: Shared<[u8; ROOM]> = Shared(UnsafeCell::new([0; ROOM]));
static DEST: Shared<[u8; ROOM]> = Shared(UnsafeCell::new([0; ROOM]));
static DECODER: Shared<UnbufferedDecoder> = Shared(UnsafeCell::new(UnbufferedDecoder::new()));
static ENCODER: Shared<UnbufferedEncoder> = Shared(UnsafeCell::new(UnbufferedEncoder::new()));
/// How many bytes the last push took.
static TAKEN: Shared<usize> = Shared(UnsafeCell::new(0));

#[panic_handler]
fn panic(_: &core::panic::PanicInfo) -> ! {
    core::arch::wasm32::unreachable()
}

fn buffers(len: usize, room: usize) -> (&'static [u8], &'static mut [u8]) {
    // SAFETY: each call borrows each of them once, and none borrows them longer.
    unsafe { (&SOURCE.get()[..len], &mut DEST.get()[..room]) }
}

fn encoded(result: Result<usize, DestBufTooSmallError>) -> i32 {
    result.map_or(-1, |len| len as i32)
}

fn decoded(result: Result<usize, DecodeError>) -> i32 {
    match result {
        Ok(len) => len as i32,
        Err(DecodeError::TargetBufTooSmall) => -1,
        Err(DecodeError::EmptyFrame) => -2,
        Err(DecodeError::InvalidFrame { decoded_bytes }) => -3 - decoded_bytes as i32,
    }
}

#[no_mangle]
pub extern "C" fn source() -> *mut u8 {
    SOURCE.0.get().cast()
}

#[no_mangle]
pub extern "C" fn dest() -> *mut u8 {
    DEST.0.get().cast()
}

#[no_mangle]
pub extern "C" fn encode(len: usize, room: usize, sentinel: u8) -> i32 {
    let (source, dest) = buffers(len, room);
    if sentinel == 0 {
        return encoded(jcobs::try_encode(source, dest));
    }
    encoded(jcobs::try_encode_with_sentinel(source, dest, sentinel))
}

#[no_mangle]
pub extern "C" fn decode(len: usize, room: usize) -> i32 {
    let (source, dest) = buffers(len, room);
    decoded(jcobs::decode(source, dest).map(|report| report.frame_size()))
}

#[no_mangle]
pub extern "C" fn decode_with_sentinel(len: usize, room: usize, sentinel: u8) -> i32 {
    let (source, dest) = buffers(len, room);
    decoded(jcobs::decode_with_sentinel(source, dest, sentinel))
}

#[no_mangle]
pub extern "C" fn decode_in_place(len: usize) -> i32 {
    decoded(jcobs::decode_in_place(buffers(0, len).1))
}

/// Pushes the bytes of the source from `start` on to the open message.
#[no_mangle]
pub extern "C" fn push_message(start: usize, len: usize, room: usize) -> i32 {
    let (source, dest) = buffers(len, room);
    // SAFETY: it is borrowed once.
    let encoder = unsafe { ENCODER.get() };
    encoded(encoder.push(dest, &source[start..]).map(|()| 0))
}

#[no_mangle]
pub extern "C" fn finalize(room: usize) -> i32 {
    // SAFETY: it is borrowed once.
    encoded(unsafe { ENCODER.get() }.finalize(buffers(0, room).1))
}

/// Takes the bytes of a stream from `start` on. If a frame ends, returns its result as `decode` does, and otherwise -2.
#[no_mangle]
pub extern "C" fn push_stream(start: usize, len: usize, room: usize) -> i32 {
    let (source, dest) = buffers(len, room);
    // SAFETY: each is borrowed once.
    let (decoder, taken) = unsafe { (DECODER.get(), TAKEN.get()) };
    let ended = decoder.feed_piece(dest, &source[start..]);
    *taken = ended.map_or(len - start, |(_, taken)| taken);
    decoded(match ended {
        None => Err(DecodeError::EmptyFrame),
        Some((PieceEnd::Message(len), _)) => Ok(len),
        Some((PieceEnd::Broken(decoded_bytes), _)) => {
            Err(DecodeError::InvalidFrame { decoded_bytes })
        }
        Some((PieceEnd::TooLong, _)) => Err(DecodeError::TargetBufTooSmall),
    })
}

#[no_mangle]
pub extern "C" fn taken() -> usize {
    // SAFETY: it is borrowed once.
    unsafe { *TAKEN.get() }
}
