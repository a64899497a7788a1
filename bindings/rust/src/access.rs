//! Accesses to the bytes of a slice that don't panic. `translate.py` writes them in place of the indices of the proved
//! functions.
//!
//! Each of these indices is proved to be inside its slice. But the compiler doesn't know the proofs: for an index it
//! would keep a panic, with the text of the panic, in every program. In the case that never happens these accesses loop
//! forever, which needs one instruction and no text; with debug assertions they panic.

use core::ops::Range;
use core::slice::SliceIndex;

pub(crate) trait Access {
    /// Returns the byte at index `at`.
    fn byte(&self, at: usize) -> u8;

    /// Writes `byte` at index `at`.
    fn put(&mut self, at: usize, byte: u8);

    /// Returns the bytes at these indices.
    fn part(&self, indices: impl SliceIndex<[u8], Output = [u8]>) -> &[u8];

    /// Returns the bytes at these indices, to change them.
    fn part_mut(&mut self, indices: impl SliceIndex<[u8], Output = [u8]>) -> &mut [u8];

    /// Copies all bytes of `source` to the front of this slice.
    fn copy_from(&mut self, source: &[u8]);

    /// Copies the bytes at these indices to index `to`, which is at most the first of these indices.
    fn copy_inside(&mut self, indices: Range<usize>, to: usize);
}

impl Access for [u8] {
    #[inline(always)]
    fn byte(&self, at: usize) -> u8 {
        *proved(self.get(at))
    }

    #[inline(always)]
    fn put(&mut self, at: usize, byte: u8) {
        *proved(self.get_mut(at)) = byte;
    }

    #[inline(always)]
    fn part(&self, indices: impl SliceIndex<[u8], Output = [u8]>) -> &[u8] {
        proved(self.get(indices))
    }

    #[inline(always)]
    fn part_mut(&mut self, indices: impl SliceIndex<[u8], Output = [u8]>) -> &mut [u8] {
        proved(self.get_mut(indices))
    }

    // This loop is a call of `memcpy`. It isn't always inlined, because in a caller the compiler may not see that the
    // slices don't overlap. `copy_from_slice` may be a function of `core`, and then has a panic.
    #[inline]
    fn copy_from(&mut self, source: &[u8]) {
        let to = self.part_mut(..source.len());
        for at in 0..source.len() {
            to.put(at, source.byte(at));
        }
    }

    #[inline(always)]
    fn copy_inside(&mut self, indices: Range<usize>, to: usize) {
        let part = self.part_mut(to..indices.end);
        let back = indices.start.wrapping_sub(to);
        if !move_back::<32>(part, back) && !move_back::<8>(part, back) {
            move_back::<1>(part, back);
        }
    }
}

/// Moves the bytes from index `back` on to the front of the slice, `N` bytes at a time. Returns false, and moves nothing,
/// if there are less than `N` bytes. `copy_within` may be a function of its own, and then has a panic.
#[inline(always)]
fn move_back<const N: usize>(part: &mut [u8], back: usize) -> bool {
    // The last `N` bytes are read before others are written over them.
    let Some(last) = part.part(back..).last_chunk::<N>().copied() else {
        return false;
    };
    let mut rest = &mut *part;
    while let Some(bytes) = rest.part(back..).first_chunk::<N>().copied() {
        let (to, after) = proved(rest.split_first_chunk_mut());
        *to = bytes;
        rest = after;
    }
    let len = part.len().wrapping_sub(back);
    *proved(part.part_mut(..len).last_chunk_mut()) = last;
    true
}

/// Returns what an access found.
#[inline(always)]
#[allow(
    clippy::empty_loop,
    reason = "the proofs say that `found` isn't `None`, and a panic would stay in every program"
)]
fn proved<T>(found: Option<T>) -> T {
    match found {
        Some(found) => found,
        None if cfg!(debug_assertions) => panic!("an index is outside its slice"),
        None => loop {},
    }
}

#[cfg(test)]
mod tests {
    use super::Access;

    #[test]
    fn copies_are_those_of_core() {
        for (from, len) in (0..40).flat_map(|from| (0..100).map(move |len| (from, len))) {
            for to in 0..=from {
                let mut bytes = core::array::from_fn::<_, 150, _>(|at| at as u8);
                let mut expected = bytes;
                bytes.copy_inside(from..from + len, to);
                expected.copy_within(from..from + len, to);
                assert_eq!(bytes, expected, "{len} bytes from {from} to {to}");

                bytes
                    .part_mut(to..)
                    .copy_from(expected.part(from..from + len));
                expected.copy_within(from..from + len, to);
                assert_eq!(bytes, expected, "{len} bytes from {from} to {to}");
            }
        }
    }
}
