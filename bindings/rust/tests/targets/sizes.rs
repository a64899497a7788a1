//! A program that makes one call of this crate, or no call. `--cfg` chooses the call. The size of a call is the size of
//! the program with the call minus the size of the program without a call. `by` is this crate, or the crate `cobs` for
//! the calls that it has. The compiler doesn't know the lengths of the slices.
#![no_std]
#![no_main]

#[panic_handler]
fn panic(_: &core::panic::PanicInfo) -> ! {
    loop {}
}

#[cfg(call = "feed")]
#[unsafe(no_mangle)]
pub fn start(decoder: &mut by::CobsDecoder, byte: u8) -> usize {
    decoder.feed(byte).map_or(0, |length| length.unwrap_or(1))
}

#[cfg(call = "push")]
#[unsafe(no_mangle)]
pub fn start(decoder: &mut by::CobsDecoder, bytes: &[u8]) -> usize {
    decoder
        .push(bytes)
        .map_or(0, |report| report.map_or(1, |report| report.frame_size()))
}

#[cfg(call = "encoder")]
#[unsafe(no_mangle)]
pub fn start(bytes: &[u8], to: &mut [u8]) -> usize {
    let mut encoder = by::CobsEncoder::new(to);
    if encoder.push(bytes).is_ok() {
        encoder.finalize()
    } else {
        0
    }
}

#[cfg(call = "decode")]
#[unsafe(no_mangle)]
pub fn start(bytes: &[u8], to: &mut [u8]) -> usize {
    by::decode(bytes, to).map_or(0, |report| report.frame_size())
}

#[cfg(call = "sentinel")]
#[unsafe(no_mangle)]
pub fn start(bytes: &[u8], to: &mut [u8], sentinel: u8) -> usize {
    by::decode_with_sentinel(bytes, to, sentinel).unwrap_or(0)
}

#[cfg(call = "in place")]
#[unsafe(no_mangle)]
pub fn start(bytes: &mut [u8]) -> usize {
    by::decode_in_place(bytes).unwrap_or(0)
}

#[cfg(call = "encode")]
#[unsafe(no_mangle)]
pub fn start(bytes: &[u8], to: &mut [u8]) -> usize {
    by::encode(bytes, to)
}

#[cfg(call = "try encode")]
#[unsafe(no_mangle)]
pub fn start(bytes: &[u8], to: &mut [u8]) -> usize {
    by::try_encode(bytes, to).unwrap_or(0)
}

#[cfg(call = "try encode with sentinel")]
#[unsafe(no_mangle)]
pub fn start(bytes: &[u8], to: &mut [u8], sentinel: u8) -> usize {
    by::try_encode_with_sentinel(bytes, to, sentinel).unwrap_or(0)
}

#[cfg(call = "encode in place")]
#[unsafe(no_mangle)]
pub fn start(buffer: &mut [u8], from: usize, len: usize) -> usize {
    by::encode_in_place(buffer, from, len)
}

#[cfg(call = "unbuffered encoder")]
#[unsafe(no_mangle)]
pub fn start(encoder: &mut by::UnbufferedEncoder, bytes: &[u8], to: &mut [u8]) -> usize {
    match encoder.push(to, bytes) {
        Ok(()) => encoder.finalize(to).unwrap_or(0),
        Err(_) => 0,
    }
}

#[cfg(call = "unbuffered decoder")]
#[unsafe(no_mangle)]
pub fn start(decoder: &mut by::UnbufferedDecoder, bytes: &[u8], to: &mut [u8]) -> usize {
    decoder
        .push(to, bytes)
        .map_or(0, |report| report.map_or(1, |report| report.frame_size()))
}

#[cfg(call = "piece")]
#[unsafe(no_mangle)]
pub fn start(decoder: &mut by::UnbufferedDecoder, bytes: &[u8], to: &mut [u8], sentinel: u8) -> usize {
    decoder
        .feed_piece_with_sentinel(to, bytes, sentinel)
        .map_or(0, |(_, taken)| taken)
}

#[cfg(call = "in place with sentinel")]
#[unsafe(no_mangle)]
pub fn start(bytes: &mut [u8], sentinel: u8) -> usize {
    by::decode_in_place_with_sentinel(bytes, sentinel).unwrap_or(0)
}

#[cfg(call = "stream in place")]
#[unsafe(no_mangle)]
pub fn start(stream: &mut [u8]) -> usize {
    by::decode_stream_in_place(stream).flatten().map(|message| message.len()).sum()
}

#[cfg(call = "kind")]
#[unsafe(no_mangle)]
pub fn start(bytes: &[u8]) -> usize {
    match by::frame_kind(bytes) {
        by::FrameKind::NotAFrame => 0,
        by::FrameKind::Canonical => 1,
        by::FrameKind::Longer => 2,
    }
}

#[cfg(call = "none")]
#[unsafe(no_mangle)]
pub fn start(bytes: &[u8]) -> usize {
    bytes.len()
}
