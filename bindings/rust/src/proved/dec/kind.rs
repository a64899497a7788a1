// Made by bindings/rust/translate.py from `crates/cobs/src/dec/kind.rt`: change that file, and run it again.
//! Finds out whether some bytes are a frame, and whether the frame is the one that encoders write for its message.

use crate::access::Access;
use crate::proved::block::FULL_CODE;
use crate::proved::slices::position_or_len;

/// Says whether some bytes are a frame, and whether the frame is the one that encoders write for its message.
///
/// ```
/// use jcobs::{FrameKind, frame_kind};
///
/// assert_eq!(frame_kind(&[]), FrameKind::NotAFrame);
/// assert_eq!(frame_kind(&[1]), FrameKind::Canonical);
/// ```
#[derive(Debug, Clone, Copy, PartialEq, Eq, Hash)]
#[cfg_attr(feature = "serde", derive(serde::Serialize, serde::Deserialize))]
#[cfg_attr(feature = "defmt", derive(defmt::Format))]
pub enum FrameKind {
    /// The bytes aren't a frame: there are no bytes, one of the bytes is a zero, or the bytes break off inside a block.
    NotAFrame,

    /// The bytes are a frame, and encoders write this frame for its message.
    Canonical,

    /// The bytes are the longer frame of a message: the frame that encoders write for this message, followed by the
    /// block 01, which has only its code. A message has a longer frame only if the message ends in a run of nonzero
    /// bytes whose length is a positive multiple of 254.
    Longer,
}

/// Returns whether the bytes are a frame, and whether the frame is the one that encoders write for its message.
///
/// `bytes` are the bytes between two sentinels. If a message has two frames, the last two blocks of the longer frame
/// are a full block, which has the code 255, and the block 01. Decoders return the same message for both frames. The
/// function allocates nothing.
///
/// A frame is defined by its blocks, as in Cheshire and Baker's paper. If a message has two frames, the shorter frame
/// is the canonical one. This is a choice of this library: all its `encode` functions write the shorter frame.
pub fn frame_kind(bytes: &[u8]) -> FrameKind {
    if position_or_len(bytes, 0) < bytes.len() {
        return FrameKind::NotAFrame;
    }
    let mut read = 0;
    let mut after_full = false;
    while read < bytes.len() {
        let code = bytes.byte(read) as usize;
        let left = bytes.len() - read;
        if left < code {
            return FrameKind::NotAFrame;
        }
        if left == code {
            return if after_full && code == 1 {
                FrameKind::Longer
            } else {
                FrameKind::Canonical
            };
        }
        after_full = code == FULL_CODE;
        read += code;
    }
    // The loop returns at the last block, so this line is reached only if there are no bytes.
    FrameKind::NotAFrame
}
