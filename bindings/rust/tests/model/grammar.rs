//! Models the format byte by byte. A frame is a list of blocks. A block is a code and the bytes after it, and the code
//! counts these bytes and itself. The message is the bytes of the blocks without their codes, with a zero between two
//! blocks unless the first has the code 255.

use jcobs::DecodeError;

/// A model of an encoder: the frame of the bytes so far.
#[derive(Clone, Default)]
pub struct Encoder {
    /// The blocks that have ended.
    blocks: Vec<u8>,
    /// The bytes of the open block.
    open: Vec<u8>,
    /// Whether a full block has just ended. Then no block is open yet.
    is_full: bool,
}

impl Encoder {
    pub fn take(&mut self, byte: u8) {
        self.is_full = false;
        if byte != 0 {
            self.open.push(byte);
            self.is_full = self.open.len() == 254;
        }
        if byte == 0 || self.is_full {
            self.blocks.push(self.open.len() as u8 + 1);
            self.blocks.append(&mut self.open);
        }
    }

    pub fn len(&self) -> usize {
        self.blocks.len() + if self.is_full { 0 } else { 1 + self.open.len() }
    }

    pub fn frame(&self) -> Vec<u8> {
        let mut frame = self.blocks.clone();
        if !self.is_full {
            frame.push(self.open.len() as u8 + 1);
            frame.extend(&self.open);
        }
        frame
    }
}

pub fn encoded(message: &[u8]) -> Vec<u8> {
    let mut encoder = Encoder::default();
    message.iter().for_each(|&byte| encoder.take(byte));
    encoder.frame()
}

/// A model of a decoder: the output of the bytes since the last zero.
#[derive(Clone, Default)]
pub struct Decoder {
    /// The whole output, even if there is no room for it.
    pub output: Vec<u8>,
    /// The length of the output before the open block.
    pub before: usize,
    /// The code of the open block.
    code: Option<u8>,
    /// How many bytes of the open block are missing.
    missing: u8,
}

impl Decoder {
    /// Takes a byte. Returns the result of a decoder whose buffer has this room.
    pub fn take(&mut self, byte: u8, room: usize) -> Result<Option<usize>, DecodeError> {
        if byte == 0 {
            return std::mem::take(self).ended(room);
        }
        if self.missing > 0 {
            self.output.push(byte);
            self.missing -= 1;
        } else {
            if self.code.is_some_and(|code| code != 255) {
                self.output.push(0);
            }
            self.before = self.output.len();
            self.code = Some(byte);
            self.missing = byte - 1;
        }
        if self.output.len() > room {
            return Err(DecodeError::TargetBufTooSmall);
        }
        Ok(None)
    }

    /// Returns the result of a zero after these bytes.
    pub fn ended(&self, room: usize) -> Result<Option<usize>, DecodeError> {
        let decoded_bytes = self.output.len();
        if self.code.is_none() {
            Ok(None)
        } else if decoded_bytes > room {
            Err(DecodeError::TargetBufTooSmall)
        } else if self.missing > 0 {
            Err(DecodeError::InvalidFrame { decoded_bytes })
        } else {
            Ok(Some(decoded_bytes))
        }
    }
}

#[test]
fn a_message_is_what_its_frame_decodes_to() {
    crate::messages(&[&[], &[0], &[0, 9]], |message| {
        let mut decoder = Decoder::default();
        let frame = encoded(message);
        for byte in &frame {
            assert_eq!(decoder.take(*byte, message.len()), Ok(None));
        }
        assert_eq!(decoder.output, message);
        assert_eq!(decoder.ended(message.len()), Ok(Some(message.len())));
        // If a message has two frames, this is the shorter one: it doesn't end with the block 1 after a full block.
        let has_full_block = frame.len() > 255 && frame[frame.len() - 256] == 255;
        assert!(!has_full_block || !frame.ends_with(&[1]) || message.ends_with(&[0]));
    });
}
