// Made by bindings/rust/translate.py from `crates/cobs/src/enc/append.rt`: change that file, and run it again.
//! The core of the encoder: appends bytes to a message, and tests beforehand whether there is room for them.

use crate::access::Access;
use crate::proved::block::{FULL_BLOCK_BYTES, FULL_CODE};
use crate::proved::enc::UnbufferedEncoder;
use crate::proved::slices::{SHORT, position_or_len};

impl UnbufferedEncoder {
    /// Returns whether the encoder's state is possible in a buffer of `len` bytes, and the frame fits this buffer after
    /// `bytes` are appended to the message. The function reads `bytes` only if their number doesn't decide this.
    #[inline(always)]
    pub(crate) fn has_room(&self, bytes: &[u8], len: usize) -> bool {
        let taken = self.taken as usize;
        // An open block has at most 253 bytes; `taken` is greater only if the caller has changed the encoder's numbers.
        if taken >= FULL_BLOCK_BYTES || len < self.index {
            return false;
        }
        let room = len - self.index;
        if bytes.is_empty() {
            return self.full != 0 || taken < room;
        }
        let next = taken + bytes.len();
        if room <= next {
            return false;
        }
        // `spare` bytes are left for codes. They are enough if the open block has at most 254 times as many bytes, which
        // is tested without a product that could overflow, and without a division that is slow on small processors.
        let spare = room - next;
        next <= FULL_BLOCK_BYTES
            || (next - next / 2 + spare - 1) / 128 < spare
            || fits(self.taken, bytes, spare)
    }

    /// Encodes the next byte of the message. The caller ensures that there is room for the byte.
    // This function calls no other function, so that the loop in `encode_in_place` keeps its variables in registers.
    #[inline(always)]
    pub(crate) fn append_byte(&mut self, dest: &mut [u8], byte: u8) {
        // `code` is the code of the open block before this byte. If the byte joins this block, the block then has
        // `code` bytes after its code, so `taken` becomes `code`. If the byte ends the block, `taken` becomes 0.
        let index = self.index;
        let mut code = self.taken as usize + 1;
        let next = index + code;
        self.full = 0;
        if byte == 0 {
            dest.put(index, code as u8);
            self.index = next;
            code = 0;
        } else {
            dest.put(next, byte);
            if code == FULL_BLOCK_BYTES {
                dest.put(index, FULL_CODE as u8);
                self.index = next + 1;
                self.full = 1;
                code = 0;
            }
        }
        self.taken = code as u8;
    }

    /// Encodes `bytes` one by one. The caller ensures that there is room for them.
    #[inline(always)]
    fn append_steps(&mut self, dest: &mut [u8], bytes: &[u8]) {
        // The copy stays in registers while bytes are written to the buffer.
        let mut state = *self;
        for byte in bytes {
            state.append_byte(dest, *byte);
        }
        *self = state;
    }

    /// Encodes `bytes`, as [`append_steps`](UnbufferedEncoder::append_steps) does, in stretches. The caller ensures that
    /// there is room for them.
    ///
    /// A run of more than `SHORT` bytes is searched for its end, and copied as slices. Other bytes are copied one by one.
    /// A block begins at the copy of each zero, and the code of this block is later written over the zero. No branch
    /// tests whether a byte is a zero, because a processor could mispredict that branch. Instead, at each byte the
    /// function writes a code for the open block, as if this byte were the zero that ends the block.
    #[inline(always)]
    fn append_stretches(&mut self, dest: &mut [u8], bytes: &[u8]) {
        let mut index = self.index;
        let mut next = index + self.taken as usize + 1;
        let mut full = self.full;
        let mut read = 0;
        // The length of the last run. After a long run, the end of the next one is searched for, too.
        let mut run = SHORT;
        while read < bytes.len() {
            // The open block has room for the bytes before index `end`.
            let mut end = read + (bytes.len() - read).min(FULL_CODE - (next - index));
            let mut copied = 0;
            if end - read > SHORT {
                if run < SHORT {
                    end = read + (SHORT - run);
                } else {
                    copied = position_or_len(bytes.part(read..end), 0);
                    dest.part_mut(next..next + copied)
                        .copy_from(bytes.part(read..read + copied));
                    next += copied;
                    read += copied;
                    end = end.min(read + 1);
                }
            }
            for byte in bytes.part(read..end) {
                dest.put(next, *byte);
                dest.put(index, (next - index) as u8);
                index = if *byte == 0 { next } else { index };
                next += 1;
            }
            read = end;
            run = copied.max(next - index - 1);
            full = 0;
            if next - index == FULL_CODE {
                dest.put(index, FULL_CODE as u8);
                index = next;
                next += 1;
                full = 1;
            }
        }
        self.index = index;
        self.taken = (next - index - 1) as u8;
        self.full = full;
    }

    /// Encodes `bytes` as the next bytes of the message. The caller ensures that there is room for them. The code of the
    /// open block isn't written yet: [`close`](UnbufferedEncoder::close) writes it at the end of the message.
    #[inline(always)]
    pub(crate) fn append(&mut self, dest: &mut [u8], bytes: &[u8]) {
        // Where no run is searched, stretches would be the same steps in more code.
        if SHORT == usize::MAX {
            self.append_steps(dest, bytes);
        } else {
            self.append_stretches(dest, bytes);
        }
    }

    /// Writes the code of the open block, unless the frame ends with a full block, and returns the frame's length.
    /// Before the call, the byte at the code's index may have any value.
    #[inline(always)]
    pub(crate) fn close(&self, dest: &mut [u8]) -> usize {
        if self.full != 0 {
            return self.index;
        }
        let code = self.taken + 1;
        dest.put(self.index, code);
        self.index + code as usize
    }
}

/// Returns whether fewer than `spare` blocks become full if `bytes` are appended to an open block of `taken` bytes. A
/// block that becomes full with the last byte isn't counted: no other block follows it, so the frame needs no further
/// code. `spare` is the number of bytes that the buffer has for codes, including the code of the open block.
fn fits(taken: u8, bytes: &[u8], spare: usize) -> bool {
    let mut left = spare;
    let mut code = taken as usize + 1;
    for byte in bytes {
        if code == FULL_CODE {
            left -= 1;
            if left == 0 {
                return false;
            }
            code = 1;
        }
        code = if *byte == 0 { 1 } else { code + 1 };
    }
    true
}
