// Made by bindings/rust/translate.py from `crates/cobs/src/enc/in_place.rt`: change that file, and run it again.
//! Encodes a message in the buffer that holds the message.

use crate::access::Access;
use crate::proved::enc::UnbufferedEncoder;

/// Encodes a message in the buffer that holds it, and returns the length of the frame in bytes.
///
/// The message has `len` bytes, and begins at index `start` of `buffer`. The bytes before the message may have any
/// values. After the call, `buffer` begins with the frame that [`encode`](crate::encode) writes for this message. Every
/// byte of `buffer` after the frame stays unchanged, even if the byte belongs to the message.
///
/// Precondition: `start` is at least [`max_encoding_overhead(len)`](crate::max_encoding_overhead), and the whole message
/// is within `buffer`.
pub fn encode_in_place(buffer: &mut [u8], start: usize, len: usize) -> usize {
    let mut encoder = UnbufferedEncoder::new();
    // The frame of the bytes read so far never extends past the last byte that was read. So the frame never overwrites
    // a byte that hasn't been read yet.
    for taken in 0..len {
        let byte = buffer.byte(start + taken);
        encoder.append_byte(buffer, byte);
    }
    encoder.close(buffer)
}
