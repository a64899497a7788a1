// Made by bindings/rust/translate.py from `crates/cobs/src/dec/run.rt`: change that file, and run it again.
//! The core of the decoder: the step for one byte, and two loops. For few bytes, a loop makes these steps. For more bytes,
//! each step of the other loop decodes a code that adds no byte to the output, or a *span*. A span consists of up to 254
//! bytes of a piece. All bytes of a span are copied, even the codes, and then a zero is written over each code.
//!
//! Each step requires that the output so far fits the buffer, and ensures that the output still fits after the step.
//! The clauses `going` state this.

use crate::access::Access;
use crate::proved::block::{FULL, FULL_BLOCK_BYTES};
use crate::proved::dec::unbuffered::{START, UnbufferedDecoder};
use crate::proved::error::DecodeError;
use crate::proved::slices::{SHORT, copy_xored, position_or_len};

/// Returns the value that `joint` has while a block with this code is open: 0 for a full block, otherwise 1.
#[inline(always)]
pub(crate) fn joint_after(code: u8) -> u8 {
    if code == FULL { 0 } else { 1 }
}

/// Writes a zero over each code in `dest`. `dest` contains the bytes of a piece that follow the code `first`. If no
/// code in `dest` follows a full block, `dest` then contains the output of these bytes. (The output has no zero after a
/// full block.) Returns the code of the last block, and how many bytes of this block are missing.
#[inline(always)]
pub(crate) fn write_zeros_at_codes(dest: &mut [u8], first: usize) -> (u8, u8) {
    let mut code = first;
    // The index of the next code.
    let mut at = first - 1;
    while at < dest.len() {
        code = dest.byte(at) as usize;
        dest.put(at, 0);
        at += code;
    }
    (code as u8, (at - dest.len()) as u8)
}

/// Returns how many bytes of a piece have to be decoded, and whether the piece is whole. A whole piece is decoded to its
/// end. A broken piece is decoded up to and including the code of its last block, because the kept output doesn't
/// include the other bytes of that block. Each byte of the piece is XORed with the sentinel before it is read.
pub(crate) fn kept_len(bytes: &[u8], sentinel: u8) -> (usize, bool) {
    let mut at = 0;
    while at < bytes.len() {
        let code = (bytes.byte(at) ^ sentinel) as usize;
        if bytes.len() - at < code {
            return (at + 1, false);
        }
        at += code;
    }
    (at, true)
}

/// Returns `len`, the message's length, if the frame is whole. Otherwise returns the error for a broken frame.
#[inline(always)]
pub(crate) fn message_len(len: usize, whole: bool) -> Result<usize, DecodeError> {
    if whole {
        Ok(len)
    } else {
        Err(DecodeError::InvalidFrame { decoded_bytes: len })
    }
}

impl UnbufferedDecoder {
    /// Ends the open piece, if there is one, at a zero, and returns the result for this zero. `len` is the buffer's
    /// length.
    #[inline(always)]
    pub(crate) fn end(&mut self, len: usize) -> Result<Option<usize>, DecodeError> {
        let ended = *self;
        *self = START;
        if ended.too_long != 0 {
            return Err(DecodeError::TargetBufTooSmall);
        }
        if ended.missing != 0 {
            return Err(DecodeError::InvalidFrame {
                decoded_bytes: ended.written,
            });
        }
        // `written` counts only bytes that fitted the buffer. So it is greater than `len` only if the caller now passes
        // a shorter buffer, or has changed the decoder's numbers.
        if len < ended.written {
            return Err(DecodeError::TargetBufTooSmall);
        }
        // No byte of a block is missing here. If a piece has begun and its last block isn't full, `joint` isn't 0. If a
        // piece has begun and its last block is full, `written` isn't 0, because the bytes of that block were written.
        // So if `joint` and `written` are both 0, no piece has begun.
        if ended.written == 0 && ended.joint == 0 {
            Ok(None)
        } else {
            Ok(Some(ended.written))
        }
    }

    /// Decodes a nonzero byte of a piece into the buffer. Returns false and changes nothing if the buffer has no room for
    /// the output of this byte.
    // `written` is read only once, because otherwise compilers would read it again after each write to the buffer. Each
    // case writes its byte itself: it would be slower to choose the byte first and then to write it in one place.
    #[inline(always)]
    pub(crate) fn take_byte(&mut self, dest: &mut [u8], byte: u8) -> bool {
        let at = self.written;
        if self.missing != 0 {
            if dest.len() <= at {
                return false;
            }
            dest.put(at, byte);
            self.written = at + 1;
            self.missing -= 1;
            return true;
        }
        if self.joint != 0 {
            if dest.len() <= at {
                return false;
            }
            dest.put(at, 0);
            self.written = at + 1;
        }
        self.missing = byte - 1;
        self.joint = joint_after(byte);
        true
    }

    /// Decodes `bytes` one by one, up to the first sentinel, as long as `dest` has room for the output. Returns how many
    /// bytes it decoded.
    #[inline(always)]
    pub(crate) fn take_steps(&mut self, dest: &mut [u8], bytes: &[u8], sentinel: u8) -> usize {
        // The loop changes `here`, a copy of the decoder that stays in registers. If the loop changed the decoder
        // itself, compilers would read the fields again after each byte that is written.
        let mut here = UnbufferedDecoder {
            too_long: 0,
            ..*self
        };
        let mut taken = 0;
        while taken < bytes.len() {
            let byte = bytes.byte(taken) ^ sentinel;
            if byte == 0 || !here.take_byte(dest, byte) {
                break;
            }
            taken += 1;
        }
        self.written = here.written;
        self.missing = here.missing;
        self.joint = here.joint;
        taken
    }

    /// Returns whether the next nonzero byte is a code before which the output has no zero: the first code of a piece,
    /// or a code after a full block.
    #[inline(always)]
    pub(crate) fn is_at_code(&self) -> bool {
        self.missing == 0 && self.joint == 0
    }

    /// Decodes the code of a new block, before which the output has no zero.
    #[inline(always)]
    pub(crate) fn take_code(&mut self, code: u8) {
        self.joint = joint_after(code);
        self.missing = code - 1;
    }

    /// Returns how many of the next `len` bytes a span may contain. A span ends no later than the first full block that
    /// ends in it.
    #[inline(always)]
    pub(crate) fn span_len(&self, len: usize) -> usize {
        let most = if self.joint == 0 {
            self.missing as usize
        } else {
            FULL_BLOCK_BYTES - 1
        };
        len.min(most)
    }

    /// Decodes `len` bytes that the caller has moved to the end of the output, that is, to index `written` of `dest`.
    /// The caller ensures that none of them is a zero, and that no full block ends before the last of them.
    #[inline(always)]
    pub(crate) fn take_moved(&mut self, dest: &mut [u8], len: usize) {
        let at = self.written;
        let missing = self.missing as usize;
        self.written = at + len;
        if len <= missing {
            self.missing -= len as u8;
            return;
        }
        // `missing` bytes of the open block are missing, as in a block that has just begun with the code `missing + 1`.
        // So `missing + 1` is passed as the code.
        let (code, left) = write_zeros_at_codes(dest.part_mut(at..at + len), missing + 1);
        self.joint = joint_after(code);
        self.missing = left;
    }

    /// Decodes bytes from the front of `bytes`, either one code or a span, and returns how many bytes it decoded. The
    /// function returns 0 only if `dest` has no room for the output of the first byte.
    #[inline(always)]
    fn take_part(&mut self, dest: &mut [u8], bytes: &[u8], sentinel: u8) -> usize {
        if self.is_at_code() {
            self.take_code(bytes.byte(0) ^ sentinel);
            return 1;
        }
        let at = self.written;
        let len = self.span_len(bytes.len().min(dest.len().saturating_sub(at)));
        if len == 0 {
            return 0;
        }
        copy_xored(bytes.part(..len), dest.part_mut(at..), sentinel);
        self.take_moved(dest, len);
        len
    }

    /// Decodes `bytes` as long as `dest` has room for the output, and returns how many bytes it decoded. The caller
    /// ensures that none of the bytes is the sentinel.
    #[inline(always)]
    pub(crate) fn take_blocks(&mut self, dest: &mut [u8], bytes: &[u8], sentinel: u8) -> usize {
        if bytes.len() <= SHORT {
            return self.take_steps(dest, bytes, sentinel);
        }
        // The loop changes `here`, a copy of the decoder that stays in registers. `too_long` is 0 before and after the
        // loop, so this field isn't copied.
        let mut here = UnbufferedDecoder {
            too_long: 0,
            ..*self
        };
        let mut taken = 0;
        while taken < bytes.len() {
            let step = here.take_part(dest, bytes.part(taken..), sentinel);
            taken += step;
            if step == 0 {
                break;
            }
        }
        self.written = here.written;
        self.missing = here.missing;
        self.joint = here.joint;
        taken
    }

    /// Decodes `bytes` up to the first sentinel, as long as `dest` has room for the output. Returns how many bytes it
    /// decoded. If the piece is already too long for the buffer, the function decodes nothing.
    #[inline(always)]
    pub(crate) fn take_run(&mut self, dest: &mut [u8], bytes: &[u8], sentinel: u8) -> usize {
        // If the piece is too long, `feed` returns an error for each of the next bytes of the piece, and `push` must
        // stop at the first of these bytes. So no byte is decoded here.
        if self.too_long != 0 {
            return 0;
        }
        if bytes.len() <= SHORT {
            return self.take_steps(dest, bytes, sentinel);
        }
        let end = position_or_len(bytes, sentinel);
        self.take_blocks(dest, bytes.part(..end), sentinel)
    }
}
