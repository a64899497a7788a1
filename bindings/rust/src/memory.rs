//! Allocates memory for some calls. If memory runs out, these calls return an error instead of aborting the program.

#[cfg(feature = "alloc")]
use alloc::vec::Vec;

/// The error that a call returns if memory for a vector runs out.
#[derive(Debug, Clone, Copy, PartialEq, Eq, Hash)]
#[cfg_attr(feature = "serde", derive(serde::Serialize, serde::Deserialize))]
#[cfg_attr(feature = "defmt", derive(defmt::Format))]
pub struct AllocError;

impl core::fmt::Display for AllocError {
    fn fmt(&self, f: &mut core::fmt::Formatter<'_>) -> core::fmt::Result {
        f.write_str("out of memory")
    }
}

impl core::error::Error for AllocError {}

/// Returns a vector with a copy of `bytes`.
#[cfg(feature = "alloc")]
pub(crate) fn copied(bytes: &[u8]) -> Result<Vec<u8>, AllocError> {
    let mut copy = Vec::new();
    copy.try_reserve_exact(bytes.len())
        .map_err(|_| AllocError)?;
    copy.extend_from_slice(bytes);
    Ok(copy)
}

/// Appends `room` zeros to `bytes`, and passes these zeros to `write`, which writes bytes over them. `write` returns
/// how many of the appended bytes to keep. The other appended bytes are removed again.
#[cfg(feature = "alloc")]
#[inline]
pub(crate) fn append(
    bytes: &mut Vec<u8>,
    room: usize,
    write: impl FnOnce(&mut [u8]) -> usize,
) -> Result<(), AllocError> {
    let begun = bytes.len();
    bytes.try_reserve(room).map_err(|_| AllocError)?;
    bytes.resize(begun + room, 0);
    let len = write(&mut bytes[begun..]);
    bytes.truncate(begun + len);
    Ok(())
}

/// Adds `item` at the end of `items`.
#[cfg(feature = "alloc")]
pub(crate) fn push<T>(items: &mut Vec<T>, item: T) -> Result<(), AllocError> {
    items.try_reserve(1).map_err(|_| AllocError)?;
    items.push(item);
    Ok(())
}
