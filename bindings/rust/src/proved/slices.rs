// Made by bindings/rust/translate.py from `crates/cobs/src/slices.rt`: change that file, and run it again.
//! Functions that search, copy and XOR bytes.

use crate::access::Access;
use crate::search::memchr;

/// Up to this many bytes are searched, encoded or decoded one by one. In more bytes, `memchr` finds the first zero, and
/// the bytes before it are copied as slices. If this is `usize::MAX`, `memchr` is never called and no slice is copied.
pub(crate) const SHORT: usize = if cfg!(feature = "fast") {
    16
} else {
    usize::MAX
};

/// Returns the index of the first byte of the source that equals `byte`, or the source's length if no byte does.
pub(crate) fn position_or_len(source: &[u8], byte: u8) -> usize {
    if source.len() <= SHORT {
        for i in 0..source.len() {
            if source.byte(i) == byte {
                return i;
            }
        }
        return source.len();
    }
    memchr(byte, source).unwrap_or(source.len())
}

/// Copies all bytes of `source` to `dest`.
// This function isn't inlined. If a compiler can't see that two slices don't overlap, it adds a loop for slices that
// overlap. In each caller, this loop would need registers. The parameters are in the same order as those of `memmove`,
// so this function only jumps to `memmove`.
#[inline]
fn copy_slice(dest: &mut [u8], source: &[u8]) {
    dest.copy_from(source);
}

/// Copies all bytes of `source` to `dest`, each XORed with `sentinel`.
// This function is inlined, because its caller knows that both slices have the same length. So compilers can copy many
// bytes per iteration.
#[inline(always)]
fn xor_slice(dest: &mut [u8], source: &[u8], sentinel: u8) {
    for i in 0..source.len() {
        dest.put(i, source.byte(i) ^ sentinel);
    }
}

/// Copies all bytes of the source to the front of `dest`, each XORed with `sentinel`.
#[inline(always)]
pub(crate) fn copy_xored(source: &[u8], dest: &mut [u8], sentinel: u8) {
    let copy = dest.part_mut(..source.len());
    if sentinel == 0 {
        copy_slice(copy, source);
    } else {
        xor_slice(copy, source, sentinel);
    }
}

/// XORs each byte with `sentinel`. So a frame with the sentinel 0 becomes a frame with this sentinel, and the other way
/// round.
pub fn xor_bytes(bytes: &mut [u8], sentinel: u8) {
    for byte in bytes.iter_mut() {
        *byte ^= sentinel;
    }
}
