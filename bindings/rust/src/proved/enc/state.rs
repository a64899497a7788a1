// Made by bindings/rust/translate.py from `crates/cobs/src/enc/state.rt`: change that file, and run it again.
//! The state machine of an encoder, without a buffer.

/// The change that a byte of the message makes to the encoded output. Indices count bytes from the start of the output.
/// The variants have the same names as in the Rust crate `cobs`.
///
/// ```
/// use jcobs::{EncoderState, PushResult};
///
/// let mut state = EncoderState::default();
/// assert!(matches!(state.push(7), PushResult::AddSingle(7)));
/// assert!(matches!(state.push(0), PushResult::ModifyFromStartAndSkip((0, 2))));
/// ```
#[derive(Debug, Clone, Copy, PartialEq, Eq, Hash)]
pub enum PushResult {
    /// This byte of the message is appended to the output.
    AddSingle(u8),

    /// The first number is an index in the output, and the second number is a code. The code replaces the output's byte
    /// at that index. Then a placeholder, which may have any value, is appended to the output.
    ModifyFromStartAndSkip((usize, u8)),

    /// The first number is an index in the output, the second number is a code, and the third number is a byte of the
    /// message. The code replaces the output's byte at that index. Then two bytes are appended to the output: the byte
    /// of the message, and a placeholder, which may have any value.
    ModifyFromStartAndPushAndSkip((usize, u8, u8)),
}

/// An encoder's state: the index at which the open block of the output begins, and the code that the block has so far,
/// from 1 to 254.
///
/// The state doesn't hold the output, so a caller can write the encoded bytes to a container of its own. At first the
/// caller's output is one placeholder, a byte of any value. For each byte of the message, [`push`](EncoderState::push)
/// returns the change that the caller makes to the output. At the end [`finalize`](EncoderState::finalize) returns the
/// last change. After all changes the output is a frame of the message, and the last block of this frame isn't full.
/// [`encode`](crate::encode) writes the same frame, unless the message ends in a run of nonzero bytes whose length is a
/// positive multiple of 254. In that case the message has two frames, and the output is the longer one: the frame that
/// `encode` writes, followed by the byte `1`.
///
/// ```
/// use jcobs::{EncoderState, PushResult};
///
/// let mut output = [0; 3];
/// let mut state = EncoderState::default();
/// if let PushResult::AddSingle(byte) = state.push(7) {
///     output[1] = byte;
/// }
/// if let PushResult::ModifyFromStartAndSkip((0, code)) = state.push(0) {
///     output[0] = code;
/// }
/// assert_eq!(state.finalize(), (2, 1));
/// output[2] = 1;
/// assert_eq!(output, [2, 7, 1]);
/// ```
#[derive(Debug, Clone, PartialEq, Eq, Hash)]
pub struct EncoderState {
    code_index: usize,
    code: u8,
}

impl Default for EncoderState {
    /// Makes the state that an encoder has before the first byte of a message. The open block consists of only the
    /// placeholder at index 0.
    ///
    /// ```
    /// use jcobs::EncoderState;
    ///
    /// let state = EncoderState::default();
    /// assert_eq!(state.finalize(), (0, 1));
    /// ```
    fn default() -> Self {
        EncoderState {
            code_index: 0,
            code: 1,
        }
    }
}

impl EncoderState {
    /// Returns whether another byte can be pushed, whatever its value is. It can be pushed if the index after this
    /// byte, at which a block may begin, fits a `usize`.
    ///
    /// ```
    /// use jcobs::EncoderState;
    ///
    /// assert!(EncoderState::default().can_push());
    /// ```
    #[must_use]
    pub fn can_push(&self) -> bool {
        self.code_index < usize::MAX - self.code as usize
    }

    /// Encodes the next byte of the message, and returns the change that this byte makes to the output.
    ///
    /// Indices count bytes from the start of the output.
    ///
    /// # Panics
    ///
    /// With overflow checks, if [`can_push`](EncoderState::can_push) returns false.
    ///
    /// ```
    /// use jcobs::{EncoderState, PushResult};
    ///
    /// let mut state = EncoderState::default();
    /// assert!(matches!(state.push(0), PushResult::ModifyFromStartAndSkip((0, 1))));
    /// assert!(matches!(state.push(9), PushResult::AddSingle(9)));
    /// ```
    #[inline]
    pub fn push(&mut self, byte: u8) -> PushResult {
        let index = self.code_index;
        if byte != 0 {
            self.code += 1;
            if self.code == 255 {
                let code = full_code();
                self.code_index = index + 255;
                self.code = 1;
                return PushResult::ModifyFromStartAndPushAndSkip((index, code, byte));
            }
            return PushResult::AddSingle(byte);
        }
        let code = self.code;
        self.code_index = index + code as usize;
        self.code = 1;
        PushResult::ModifyFromStartAndSkip((index, code))
    }

    /// Ends the message. Returns the index of the last placeholder in the output, and the code that replaces this
    /// placeholder.
    ///
    /// ```
    /// use jcobs::EncoderState;
    ///
    /// assert_eq!(EncoderState::default().finalize(), (0, 1));
    /// ```
    #[must_use]
    pub fn finalize(self) -> (usize, u8) {
        (self.code_index, self.code)
    }
}

/// Returns the code of a full block.
// The function is marked cold, because compilers assume that a branch to a cold function is rarely taken. Without this
// mark, compilers compute the results of all three cases, and then choose one of them without a branch. That is slower.
#[cold]
#[inline(never)]
fn full_code() -> u8 {
    255
}
