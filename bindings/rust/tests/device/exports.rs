//! Defines the calls of `jcobs.h` over the crate `jcobs`, so that the C tests of the library for devices test the
//! crate.
#![no_std]

use core::slice;

use jcobs::{
    CobsDecoder, DecodeError, DestBufTooSmallError, FrameKind, PieceEnd, UnbufferedDecoder, UnbufferedEncoder,
};

unsafe extern "C" {
    fn abort() -> !;
}

#[panic_handler]
fn panic(_: &core::panic::PanicInfo) -> ! {
    // SAFETY: this function of the C library has no precondition.
    unsafe { abort() }
}

#[repr(C)]
pub struct Answer {
    status: u32,
    consumed: usize,
    length: usize,
}

const fn answer(status: u32, consumed: usize, length: usize) -> Answer {
    Answer { status, consumed, length }
}

/// # Safety
///
/// The pointer is valid for reads of that many bytes, if there are any.
unsafe fn read<'a>(from: *const u8, len: usize) -> &'a [u8] {
    if len == 0 { &[] } else { unsafe { slice::from_raw_parts(from, len) } }
}

/// # Safety
///
/// The pointer is valid for writes of that many bytes, if there are any.
unsafe fn write<'a>(to: *mut u8, len: usize) -> &'a mut [u8] {
    if len == 0 { &mut [] } else { unsafe { slice::from_raw_parts_mut(to, len) } }
}

fn encoded(consumed: usize, result: Result<usize, DestBufTooSmallError>) -> Answer {
    result.map_or(answer(2, 0, 0), |length| answer(0, consumed, length))
}

fn decoded(consumed: usize, room: usize, result: Result<usize, DecodeError>) -> Answer {
    match result {
        Ok(length) => answer(0, consumed, length),
        Err(DecodeError::TargetBufTooSmall) => answer(2, consumed, room),
        Err(DecodeError::InvalidFrame { decoded_bytes }) => answer(3, consumed, decoded_bytes),
        Err(DecodeError::EmptyFrame) => answer(4, consumed, 0),
    }
}

/// Returns how many bytes the frame at the front has, with the zero after it.
fn through_zero(bytes: &[u8]) -> usize {
    bytes.iter().position(|byte| *byte == 0).map_or(bytes.len(), |at| at + 1)
}

#[unsafe(no_mangle)]
pub extern "C" fn jcobs_max_length(len: usize) -> usize {
    len.checked_add(jcobs::max_encoding_overhead(len)).unwrap_or(0)
}

#[unsafe(no_mangle)]
pub unsafe extern "C" fn jcobs_encode(from: *const u8, len: usize, to: *mut u8, room: usize) -> Answer {
    let (from, to) = unsafe { (read(from, len), write(to, room)) };
    encoded(len, jcobs::try_encode(from, to))
}

#[unsafe(no_mangle)]
pub unsafe extern "C" fn jcobs_encode_terminated(from: *const u8, len: usize, to: *mut u8, room: usize) -> Answer {
    let (from, to) = unsafe { (read(from, len), write(to, room)) };
    let Some((_, front)) = to.split_last_mut() else { return answer(2, 0, 0) };
    encoded(len, jcobs::try_encode(from, front).map(|at| { to[at] = 0; at + 1 }))
}

#[unsafe(no_mangle)]
pub unsafe extern "C" fn jcobs_encode_in_place(buffer: *mut u8, room: usize, start: usize, len: usize) -> Answer {
    if start < jcobs::max_encoding_overhead(len) || room < start || room - start < len {
        return answer(2, 0, 0);
    }
    answer(0, len, jcobs::encode_in_place(unsafe { write(buffer, room) }, start, len))
}

#[unsafe(no_mangle)]
pub unsafe extern "C" fn jcobs_decode(from: *const u8, len: usize, to: *mut u8, room: usize) -> Answer {
    let (from, to) = unsafe { (read(from, len), write(to, room)) };
    let zeros = from.iter().take_while(|byte| **byte == 0).count();
    if zeros == len {
        return answer(4, len, 0);
    }
    let consumed = zeros + through_zero(&from[zeros..]);
    let result = jcobs::decode(from, to);
    assert!(result.is_err() || result.is_ok_and(|report| report.parsed_size() == consumed));
    decoded(consumed, room, result.map(|report| report.frame_size()))
}

#[unsafe(no_mangle)]
pub unsafe extern "C" fn jcobs_decode_in_place(buffer: *mut u8, len: usize) -> Answer {
    let buffer = unsafe { write(buffer, len) };
    let consumed = through_zero(buffer);
    decoded(consumed, len, jcobs::decode_in_place(buffer))
}

#[unsafe(no_mangle)]
pub unsafe extern "C" fn jcobs_frame_kind(bytes: *const u8, len: usize) -> u32 {
    match jcobs::frame_kind(unsafe { read(bytes, len) }) {
        FrameKind::NotAFrame => 0,
        FrameKind::Canonical => 1,
        FrameKind::Longer => 2,
    }
}

#[unsafe(no_mangle)]
pub extern "C" fn jcobs_decoder_reset(decoder: &mut UnbufferedDecoder) {
    *decoder = UnbufferedDecoder::new();
}

#[unsafe(no_mangle)]
pub extern "C" fn jcobs_decoder_is_idle(decoder: &UnbufferedDecoder) -> u32 {
    decoder.is_idle().into()
}

#[unsafe(no_mangle)]
pub unsafe extern "C" fn jcobs_decoder_push(decoder: &mut UnbufferedDecoder, buffer: *mut u8, room: usize, bytes: *const u8, len: usize) -> Answer {
    let (buffer, bytes) = unsafe { (write(buffer, room), read(bytes, len)) };
    if decoder.is_idle() && bytes.last() == Some(&0) && !bytes[..len - 1].contains(&0) {
        return piece(buffer, bytes);
    }
    match decoder.feed_piece(buffer, bytes) {
        None if decoder.too_long != 0 => answer(1, len, room),
        None => answer(1, len, decoder.written.min(room)),
        Some((end, taken)) => ended(end, taken, room),
    }
}

/// Decodes a whole piece with its zero by the decoder over a slice, and compares the result with those of `push` and
/// `feed_piece`.
fn piece(buffer: &mut [u8], bytes: &[u8]) -> Answer {
    let (room, len) = (buffer.len(), bytes.len());
    let mut over_slice = CobsDecoder::new(buffer);
    let pushed = over_slice.push(bytes);
    assert_eq!(over_slice.parsed_size(), len);
    match pushed {
        Ok(None) => answer(1, len, 0),
        Ok(Some(report)) => answer(0, len, report.frame_size()),
        Err(error) => decoded(len, room, Err(error)),
    }
}

fn ended(end: PieceEnd, taken: usize, room: usize) -> Answer {
    match end {
        PieceEnd::Message(length) => answer(0, taken, length),
        PieceEnd::Broken(count) => answer(3, taken, count.min(room)),
        PieceEnd::TooLong => answer(2, taken, room),
    }
}

#[unsafe(no_mangle)]
pub unsafe extern "C" fn jcobs_decoder_feed(decoder: &mut UnbufferedDecoder, buffer: *mut u8, room: usize, byte: u8) -> Answer {
    let buffer = unsafe { write(buffer, room) };
    match decoder.feed(buffer, byte) {
        Ok(Some(length)) => answer(0, 1, length),
        Err(DecodeError::InvalidFrame { decoded_bytes }) => answer(3, 1, decoded_bytes.min(room)),
        Err(_) if byte == 0 => answer(2, 1, room),
        Err(_) => answer(1, 1, room),
        Ok(None) => answer(1, 1, decoder.written.min(room)),
    }
}

/// Returns the index at which the frame so far ends.
fn end_of(encoder: &UnbufferedEncoder) -> usize {
    if encoder.full != 0 { encoder.index } else { encoder.index + usize::from(encoder.taken) + 1 }
}

#[unsafe(no_mangle)]
pub extern "C" fn jcobs_encoder_reset(encoder: &mut UnbufferedEncoder) {
    *encoder = UnbufferedEncoder::new();
}

#[unsafe(no_mangle)]
pub unsafe extern "C" fn jcobs_encoder_push(encoder: &mut UnbufferedEncoder, buffer: *mut u8, room: usize, bytes: *const u8, len: usize) -> Answer {
    let (buffer, bytes) = unsafe { (write(buffer, room), read(bytes, len)) };
    match encoder.push(buffer, bytes) {
        Ok(()) => answer(0, len, end_of(encoder)),
        Err(DestBufTooSmallError) => answer(2, 0, 0),
    }
}

#[unsafe(no_mangle)]
pub unsafe extern "C" fn jcobs_encoder_feed(encoder: &mut UnbufferedEncoder, buffer: *mut u8, room: usize, byte: u8) -> Answer {
    unsafe { jcobs_encoder_push(encoder, buffer, room, &byte, 1) }
}

#[unsafe(no_mangle)]
pub unsafe extern "C" fn jcobs_encoder_finish(encoder: &mut UnbufferedEncoder, buffer: *mut u8, room: usize) -> Answer {
    encoded(0, encoder.finalize(unsafe { write(buffer, room) }))
}

#[unsafe(no_mangle)]
pub unsafe extern "C" fn jcobs_encoder_finish_terminated(encoder: &mut UnbufferedEncoder, buffer: *mut u8, room: usize) -> Answer {
    let Some(last) = room.checked_sub(1) else { return answer(2, 0, 0) };
    let finished = unsafe { jcobs_encoder_finish(encoder, buffer, last) };
    if finished.status != 0 {
        return finished;
    }
    let buffer = unsafe { write(buffer, room) };
    buffer[finished.length] = 0;
    answer(0, 0, finished.length + 1)
}
