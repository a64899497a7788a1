//! The calls of the Rust crate `by`, over the messages of a row (speed.h). Errors are counted, as receivers and senders do, and each
//! loop is a function of its own, as in a program.
#![cfg_attr(bare, no_std)]

use by::{CobsDecoder, CobsEncoder};
use core::hint::black_box;
use core::slice::{from_raw_parts, from_raw_parts_mut};

#[cfg(bare)]
#[panic_handler]
fn panic(_: &core::panic::PanicInfo) -> ! {
    loop {}
}

const SENTINEL: u8 = 0x7e;

#[repr(C)]
pub struct Work {
    count: usize,
    len: usize,
    messages: *const u8,
    stream: *const u8,
    marked: *const u8,
    stream_len: usize,
    lens: *const usize,
    copies: *mut u8,
    room: *mut u8,
    room_size: usize,
}

// SAFETY, for each of these: main.c lays out so many bytes there, and nothing else refers to the room or the copies meanwhile.
impl Work {
    fn messages(&self) -> impl Iterator<Item = &[u8]> {
        unsafe { from_raw_parts(self.messages, self.count * self.len) }.chunks_exact(self.len)
    }
    fn stream(&self) -> &[u8] {
        unsafe { from_raw_parts(self.stream, self.stream_len) }
    }
    fn lens(&self) -> &[usize] {
        unsafe { from_raw_parts(self.lens, self.count) }
    }
    fn frames<'a>(&'a self, mut stream: &'a [u8]) -> impl Iterator<Item = &'a [u8]> {
        self.lens().iter().map(move |len| {
            let (frame, rest) = stream.split_at(*len);
            stream = &rest[1..];
            frame
        })
    }
    #[allow(clippy::mut_from_ref)]
    fn room(&self) -> &mut [u8] {
        unsafe { from_raw_parts_mut(self.room, self.room_size) }
    }
}

fn counted<E>(results: impl Iterator<Item = Result<usize, E>>) -> usize {
    let (mut sum, mut errors) = (0, 0);
    for result in results {
        match result {
            Ok(len) => sum += len,
            Err(_) => errors += 1,
        }
    }
    sum + black_box(errors)
}

extern "C" fn decode(work: &Work) -> usize {
    let room = work.room();
    counted(
        work.frames(work.stream())
            .map(|frame| by::decode(frame, room).map(|report| report.frame_size())),
    )
}

// The crate `cobs` decodes its whole destination, so that has the frame's length.
extern "C" fn decode_marked(work: &Work) -> usize {
    let room = work.room();
    let marked = unsafe { from_raw_parts(work.marked, work.stream_len) };
    counted(
        work.frames(marked)
            .map(|frame| by::decode_with_sentinel(frame, &mut room[..frame.len()], SENTINEL)),
    )
}

extern "C" fn in_place(work: &Work) -> usize {
    let mut copies = unsafe { from_raw_parts_mut(work.copies, work.stream_len) };
    counted(work.lens().iter().map(|len| {
        let (frame, rest) = core::mem::take(&mut copies).split_at_mut(*len);
        copies = &mut rest[1..];
        by::decode_in_place(frame)
    }))
}

#[inline(always)]
fn push_by(work: &Work, most: usize) -> usize {
    let mut decoder = CobsDecoder::new(work.room());
    let (mut sum, mut errors) = (0, 0);
    for mut piece in work.stream().chunks(most) {
        while !piece.is_empty() {
            match decoder.push(piece) {
                Ok(Some(report)) => {
                    sum += report.frame_size();
                    piece = &piece[report.parsed_size()..];
                }
                Ok(None) => break,
                Err(_) => {
                    errors += 1;
                    break;
                }
            }
        }
    }
    sum + black_box(errors)
}

extern "C" fn push(work: &Work) -> usize {
    push_by(work, work.stream_len)
}

extern "C" fn push_64(work: &Work) -> usize {
    push_by(work, 64)
}

extern "C" fn push_8(work: &Work) -> usize {
    push_by(work, 8)
}

extern "C" fn feed(work: &Work) -> usize {
    let mut decoder = CobsDecoder::new(work.room());
    counted(
        work.stream()
            .iter()
            .map(|byte| decoder.feed(*byte).map(|ended| ended.unwrap_or(0))),
    )
}

extern "C" fn encode(work: &Work) -> usize {
    let room = work.room();
    work.messages().map(|message| by::encode(message, room)).sum()
}

extern "C" fn try_encode(work: &Work) -> usize {
    let room = work.room();
    counted(work.messages().map(|message| by::try_encode(message, room)))
}

extern "C" fn encode_marked(work: &Work) -> usize {
    let room = work.room();
    work.messages()
        .map(|message| by::encode_with_sentinel(message, room, SENTINEL))
        .sum()
}

#[inline(always)]
fn encoder_by(work: &Work, most: usize) -> usize {
    let room = work.room();
    counted(work.messages().map(|message| {
        let mut encoder = CobsEncoder::new(room);
        for piece in message.chunks(most) {
            encoder.push(piece)?;
        }
        Ok::<_, by::DestBufTooSmallError>(encoder.finalize())
    }))
}

extern "C" fn encoder(work: &Work) -> usize {
    encoder_by(work, work.len)
}

extern "C" fn encoder_64(work: &Work) -> usize {
    encoder_by(work, 64)
}

extern "C" fn encoder_8(work: &Work) -> usize {
    encoder_by(work, 8)
}

extern "C" fn encoder_feed(work: &Work) -> usize {
    encoder_by(work, 1)
}

#[unsafe(no_mangle)]
pub static calls: [extern "C" fn(&Work) -> usize; 14] = [
    decode,
    decode_marked,
    in_place,
    push,
    push_64,
    push_8,
    feed,
    encode,
    try_encode,
    encode_marked,
    encoder,
    encoder_64,
    encoder_8,
    encoder_feed,
];
