//! Defines a vector of up to `N` bytes, which are stored in an array inside the vector.

use core::fmt;
use core::ops::{Deref, DerefMut};

use crate::access::Access;

/// A vector of up to `N` bytes, for [`CobsDecoderHeapless`](crate::CobsDecoderHeapless). The vector allocates no
/// memory.
///
/// ```
/// let mut vec = jcobs::ArrayVec::<3>::new();
/// vec.push(7);
/// assert_eq!(vec.as_slice(), [7]);
/// assert_eq!(vec.remaining_capacity(), 2);
/// ```
#[derive(Clone)]
pub struct ArrayVec<const N: usize> {
    bytes: [u8; N],
    len: usize,
}

impl<const N: usize> ArrayVec<N> {
    /// Makes an empty vector.
    #[inline]
    #[must_use]
    pub const fn new() -> Self {
        Self {
            bytes: [0; N],
            len: 0,
        }
    }

    /// Returns how many more bytes the vector has room for.
    #[inline]
    #[must_use]
    pub const fn remaining_capacity(&self) -> usize {
        N - self.len
    }

    /// Adds `byte` at the end of the vector.
    ///
    /// # Panics
    ///
    /// Panics if the vector is full.
    #[inline]
    pub fn push(&mut self, byte: u8) {
        assert!(self.len < N, "ArrayVec::push: the vector isn't full");
        self.bytes[self.len] = byte;
        self.len += 1;
    }

    /// Returns the bytes of the vector as a slice.
    #[inline]
    #[must_use]
    pub fn as_slice(&self) -> &[u8] {
        self.bytes.part(..self.len)
    }

    /// Returns the bytes of the vector as a mutable slice.
    #[inline]
    pub fn as_mut_slice(&mut self) -> &mut [u8] {
        self.bytes.part_mut(..self.len)
    }
}

impl<const N: usize> fmt::Debug for ArrayVec<N> {
    fn fmt(&self, f: &mut fmt::Formatter<'_>) -> fmt::Result {
        self.as_slice().fmt(f)
    }
}

impl<const N: usize> PartialEq for ArrayVec<N> {
    fn eq(&self, other: &Self) -> bool {
        self.as_slice() == other.as_slice()
    }
}

impl<const N: usize> Eq for ArrayVec<N> {}

impl<const N: usize> Default for ArrayVec<N> {
    fn default() -> Self {
        Self::new()
    }
}

impl<const N: usize> Deref for ArrayVec<N> {
    type Target = [u8];

    fn deref(&self) -> &[u8] {
        self.as_slice()
    }
}

impl<const N: usize> DerefMut for ArrayVec<N> {
    fn deref_mut(&mut self) -> &mut [u8] {
        self.as_mut_slice()
    }
}

/// Makes a full vector with the bytes of the array.
impl<const N: usize> From<[u8; N]> for ArrayVec<N> {
    fn from(bytes: [u8; N]) -> Self {
        Self { bytes, len: N }
    }
}

/// Makes a vector with a copy of the bytes of `vec`.
#[cfg(feature = "heapless")]
impl<const N: usize> From<heapless::Vec<u8, N>> for ArrayVec<N> {
    fn from(vec: heapless::Vec<u8, N>) -> Self {
        let mut copy = Self::new();
        copy.bytes.part_mut(..vec.len()).copy_from(&vec);
        copy.len = vec.len();
        copy
    }
}
