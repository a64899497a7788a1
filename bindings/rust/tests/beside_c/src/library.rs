//! Declares the library for C, as bindings/c/include/jcobs.h does. Its structs are the crate's coders without a buffer.

use jcobs::{UnbufferedDecoder as Decoder, UnbufferedEncoder as Encoder};

#[derive(Debug, Clone, Copy, PartialEq)]
#[repr(C)]
pub struct Answer {
    pub status: u32,
    pub consumed: usize,
    pub length: usize,
}

pub const OK: u32 = 0;
pub const MORE: u32 = 1;
pub const TOO_SMALL: u32 = 2;
pub const BROKEN: u32 = 3;
pub const EMPTY: u32 = 4;

mod declared {
    use super::{Answer, Decoder, Encoder};

    #[link(name = "jcobs", kind = "static")]
    unsafe extern "C" {
        pub fn jcobs_encode(m: *const u8, len: usize, f: *mut u8, room: usize) -> Answer;
        pub fn jcobs_encode_terminated(m: *const u8, len: usize, f: *mut u8, room: usize)
        -> Answer;
        pub fn jcobs_encode_with_sentinel(
            m: *const u8,
            len: usize,
            f: *mut u8,
            room: usize,
            sentinel: u8,
        ) -> Answer;
        pub fn jcobs_encode_in_place(buffer: *mut u8, room: usize, start: usize, len: usize) -> Answer;
        pub fn jcobs_decode(s: *const u8, len: usize, m: *mut u8, room: usize) -> Answer;
        pub fn jcobs_decode_with_sentinel(
            s: *const u8,
            len: usize,
            m: *mut u8,
            room: usize,
            sentinel: u8,
        ) -> Answer;
        pub fn jcobs_decode_in_place(buffer: *mut u8, len: usize) -> Answer;
        pub fn jcobs_frame_kind(bytes: *const u8, len: usize) -> u32;
        pub fn jcobs_decoder_push(
            d: *mut Decoder,
            m: *mut u8,
            room: usize,
            s: *const u8,
            len: usize,
        ) -> Answer;
        pub fn jcobs_decoder_feed(d: *mut Decoder, m: *mut u8, room: usize, byte: u8) -> Answer;
        pub fn jcobs_encoder_push(
            e: *mut Encoder,
            f: *mut u8,
            room: usize,
            m: *const u8,
            len: usize,
        ) -> Answer;
        pub fn jcobs_encoder_finish(e: *mut Encoder, f: *mut u8, room: usize) -> Answer;
    }
}

/// Defines a call that takes slices in place of pointers and lengths.
macro_rules! calls {
    ($($name:ident = $declared:ident($($argument:ident: $type:ty => $($passed:expr),+);* $(;)?) -> $returned:ty;)*) => {
        $(pub fn $name($($argument: $type),*) -> $returned {
            // SAFETY: each pointer comes with its length, and no two of the slices overlap.
            unsafe { declared::$declared($($($passed),+),*) }
        })*
    };
}

calls! {
    encode = jcobs_encode(m: &[u8] => m.as_ptr(), m.len(); f: &mut [u8] => f.as_mut_ptr(), f.len()) -> Answer;
    encode_terminated = jcobs_encode_terminated(m: &[u8] => m.as_ptr(), m.len(); f: &mut [u8] => f.as_mut_ptr(), f.len()) -> Answer;
    encode_with_sentinel = jcobs_encode_with_sentinel(
        m: &[u8] => m.as_ptr(), m.len(); f: &mut [u8] => f.as_mut_ptr(), f.len(); sentinel: u8 => sentinel
    ) -> Answer;
    encode_in_place = jcobs_encode_in_place(b: &mut [u8] => b.as_mut_ptr(), b.len(); start: usize => start; len: usize => len) -> Answer;
    decode = jcobs_decode(s: &[u8] => s.as_ptr(), s.len(); m: &mut [u8] => m.as_mut_ptr(), m.len()) -> Answer;
    decode_with_sentinel = jcobs_decode_with_sentinel(
        s: &[u8] => s.as_ptr(), s.len(); m: &mut [u8] => m.as_mut_ptr(), m.len(); sentinel: u8 => sentinel
    ) -> Answer;
    decode_in_place = jcobs_decode_in_place(b: &mut [u8] => b.as_mut_ptr(), b.len()) -> Answer;
    frame_kind = jcobs_frame_kind(b: &[u8] => b.as_ptr(), b.len()) -> u32;
    decoder_push = jcobs_decoder_push(
        d: &mut Decoder => d; m: &mut [u8] => m.as_mut_ptr(), m.len(); s: &[u8] => s.as_ptr(), s.len()
    ) -> Answer;
    decoder_feed = jcobs_decoder_feed(d: &mut Decoder => d; m: &mut [u8] => m.as_mut_ptr(), m.len(); byte: u8 => byte) -> Answer;
    encoder_push = jcobs_encoder_push(
        e: &mut Encoder => e; f: &mut [u8] => f.as_mut_ptr(), f.len(); m: &[u8] => m.as_ptr(), m.len()
    ) -> Answer;
    encoder_finish = jcobs_encoder_finish(e: &mut Encoder => e; f: &mut [u8] => f.as_mut_ptr(), f.len()) -> Answer;
}
