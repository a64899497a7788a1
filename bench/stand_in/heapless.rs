//! Stands in for the crate `heapless`, so that the measured crate builds without a registry: its vector of bytes, as far
//! as that crate needs it. None of the measured calls uses it.
#![no_std]

use core::ops::{Deref, DerefMut};

#[derive(Debug)]
pub struct Vec<T, const N: usize> {
    items: [T; N],
    len: usize,
}

impl<const N: usize> Vec<u8, N> {
    pub fn new() -> Self {
        Vec { items: [0; N], len: 0 }
    }

    pub fn capacity(&self) -> usize {
        N
    }

    pub fn resize(&mut self, len: usize, item: u8) -> Result<(), ()> {
        let grown = self.items.get_mut(..len).ok_or(())?;
        grown.iter_mut().skip(self.len).for_each(|place| *place = item);
        self.len = len;
        Ok(())
    }
}

impl<const N: usize> Default for Vec<u8, N> {
    fn default() -> Self {
        Self::new()
    }
}

impl<T, const N: usize> Deref for Vec<T, N> {
    type Target = [T];

    fn deref(&self) -> &[T] {
        &self.items[..self.len]
    }
}

impl<T, const N: usize> DerefMut for Vec<T, N> {
    fn deref_mut(&mut self) -> &mut [T] {
        &mut self.items[..self.len]
    }
}
