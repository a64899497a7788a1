//! Compares the library for C with this crate, call by call, with random bytes and buffers. The streaming coders begin
//! in any state. usage: beside-c ROUNDS

mod library;

use std::fmt::Debug;

use jcobs::{
    DecodeError, DecodeReport, DestBufTooSmallError, PieceEnd, UnbufferedDecoder,
    UnbufferedEncoder,
};
use library::{Answer, BROKEN, EMPTY, MORE, OK, TOO_SMALL};

struct Random(u64);

impl Random {
    fn below(&mut self, end: usize) -> usize {
        self.0 ^= self.0 << 13;
        self.0 ^= self.0 >> 7;
        self.0 ^= self.0 << 17;
        (self.0 >> 20) as usize % end
    }

    /// Returns bytes in which runs of any length are as likely as zeros in a row, and small codes as likely as large
    /// codes.
    fn bytes(&mut self) -> Vec<u8> {
        let lengths = [
            self.below(9),
            self.below(80),
            250 + self.below(12),
            self.below(1200),
        ];
        let zeros = [1, 2, 8, 100, 100_000][self.below(5)];
        let greatest = [3, 20, 256][self.below(3)];
        (0..lengths[self.below(4)])
            .map(|_| {
                if self.below(zeros) == 0 {
                    0
                } else {
                    self.below(greatest) as u8
                }
            })
            .collect()
    }

    /// Returns the frame of a message, sometimes with one byte changed.
    fn frame(&mut self) -> Vec<u8> {
        let mut frame = jcobs::encode_vec(&self.bytes());
        if self.below(3) == 0 {
            let at = self.below(frame.len());
            frame[at] = self.below(256) as u8;
        }
        frame
    }

    /// Returns a buffer of about this length.
    fn buffer(&mut self, needed: usize) -> Vec<u8> {
        let lengths = [
            needed,
            needed + self.below(40),
            needed.saturating_sub(1),
            self.below(needed + 2),
        ];
        let length = lengths[self.below(4)];
        (0..length).map(|_| self.below(256) as u8).collect()
    }
}

struct Compared(u64);

impl Compared {
    fn same<T: Debug + PartialEq>(&mut self, call: &str, c: T, rust: T, input: &dyn Debug) {
        self.0 += 1;
        assert_eq!(
            c, rust,
            "{call} of {input:x?}: that of the library for C is on the left"
        );
    }
}

/// Returns the result of the library for C that stands for this result of encoding.
fn encoded(c: Answer) -> Result<usize, DestBufTooSmallError> {
    match c.status {
        OK => Ok(c.length),
        TOO_SMALL => Err(DestBufTooSmallError),
        _ => panic!("{c:?}"),
    }
}

/// Returns the result of the library for C that stands for this result of decoding, or `None` if there was no frame.
fn decoded(c: Answer) -> Option<Result<(usize, usize), DecodeError>> {
    Some(match c.status {
        OK => Ok((c.consumed, c.length)),
        BROKEN => Err(DecodeError::InvalidFrame {
            decoded_bytes: c.length,
        }),
        TOO_SMALL => Err(DecodeError::TargetBufTooSmall),
        MORE | EMPTY => return None,
        _ => panic!("{c:?}"),
    })
}

fn sizes(report: DecodeReport) -> (usize, usize) {
    (report.parsed_size(), report.frame_size())
}

fn encoding(seen: &mut Compared, random: &mut Random) {
    let message = random.bytes();
    let longest = jcobs::max_encoding_length(message.len());
    let mut c = random.buffer(longest);
    let mut rust = c.clone();
    let returned = encoded(library::encode(&message, &mut c));
    seen.same(
        "encode",
        returned,
        jcobs::try_encode(&message, &mut rust),
        &message,
    );
    seen.same("encode, its buffer", &c, &rust, &message);

    let returned = encoded(library::encode_terminated(&message, &mut c));
    let expected = match rust.split_last_mut() {
        Some((_, front)) => jcobs::try_encode(&message, front),
        None => Err(DestBufTooSmallError),
    };
    let expected = expected.map(|length| {
        rust[length] = 0;
        length + 1
    });
    seen.same("encode_terminated", returned, expected, &message);
    seen.same("encode_terminated, its buffer", &c, &rust, &message);

    let sentinel = random.below(256) as u8;
    let returned = encoded(library::encode_with_sentinel(&message, &mut c, sentinel));
    let expected = jcobs::try_encode_with_sentinel(&message, &mut rust, sentinel);
    seen.same("encode_with_sentinel", returned, expected, &message);
    seen.same("encode_with_sentinel, its buffer", &c, &rust, &message);

    let mut c = vec![0; longest + random.below(20)];
    let start = longest - message.len();
    c[start..longest].copy_from_slice(&message);
    let mut rust = c.clone();
    let returned = encoded(library::encode_in_place(&mut c, start, message.len()));
    seen.same(
        "encode_in_place",
        returned,
        Ok(jcobs::encode_in_place(&mut rust, start, message.len())),
        &message,
    );
    seen.same("encode_in_place, its buffer", &c, &rust, &message);
}

fn decoding(seen: &mut Compared, random: &mut Random) {
    let mut source = if random.below(2) == 0 {
        random.bytes()
    } else {
        random.frame()
    };
    if random.below(2) == 0 {
        source.push(0);
    }
    let mut c = random.buffer(source.len());
    let mut rust = c.clone();
    let returned = decoded(library::decode(&source, &mut c));
    // A source of zeros only is an error in C too, with another name.
    let none = if source.is_empty() {
        DecodeError::EmptyFrame
    } else {
        DecodeError::InvalidFrame { decoded_bytes: 0 }
    };
    let expected = jcobs::decode(&source, &mut rust).map(sizes);
    seen.same("decode", returned.unwrap_or(Err(none)), expected, &source);
    seen.same("decode, its buffer", &c, &rust, &source);

    let sentinel = random.below(256) as u8;
    let xored: Vec<_> = source.iter().map(|byte| byte ^ sentinel).collect();
    let returned = library::decode_with_sentinel(&xored, &mut c, sentinel);
    let expected = jcobs::decode_with_sentinel(&xored, &mut rust, sentinel);
    let lengths = decoded(returned).map(|result| result.map(|(_, length)| length));
    let expected = (!source.is_empty()).then_some(expected);
    seen.same(
        "decode_with_sentinel",
        lengths,
        expected,
        &(sentinel, &xored),
    );
    seen.same("decode_with_sentinel, its buffer", &c, &rust, &source);

    if source.first().is_some_and(|&byte| byte != 0) {
        let (mut c, mut rust) = (source.clone(), source.clone());
        let returned = decoded(library::decode_in_place(&mut c));
        let expected = jcobs::decode_in_place_report(&mut rust).map(|report| {
            // In C the zero after the frame is counted.
            let (parsed, len) = sizes(report);
            (parsed + usize::from(parsed < source.len()), len)
        });
        seen.same("decode_in_place", returned, Some(expected), &source);
        seen.same("decode_in_place, its buffer", &c, &rust, &source);
    }
    let kind = library::frame_kind(&source);
    seen.same(
        "frame_kind",
        kind,
        jcobs::frame_kind(&source) as u32,
        &source,
    );
}

/// Returns what the numbers of a decoder mean: after an overflow only `too_long` matters.
fn state_of(decoder: UnbufferedDecoder) -> Option<(usize, u8, bool)> {
    let UnbufferedDecoder {
        written,
        missing,
        joint,
        too_long,
    } = decoder;
    (too_long == 0).then_some((written, missing, joint != 0))
}

/// Returns the result of the library for C that stands for this end of a piece.
fn ended(c: Answer) -> Option<(PieceEnd, usize)> {
    let end = match c.status {
        OK => PieceEnd::Message(c.length),
        BROKEN => PieceEnd::Broken(c.length),
        TOO_SMALL => PieceEnd::TooLong,
        _ => return None,
    };
    Some((end, c.consumed))
}

fn decoder(seen: &mut Compared, random: &mut Random) {
    let mut buffer = random.buffer(300);
    let mut copy = buffer.clone();
    let mut c = if random.below(2) == 0 {
        UnbufferedDecoder::new()
    } else {
        UnbufferedDecoder {
            // If the message is longer than the buffer, the two results differ.
            written: random.below(buffer.len() + 1),
            missing: random.below(256) as u8,
            joint: random.below(2) as u8,
            too_long: u8::from(random.below(8) == 0),
        }
    };
    let mut rust = c;
    for _ in 0..4 {
        let state = c;
        let bytes = random.bytes();
        let returned = ended(library::decoder_push(&mut c, &mut buffer, &bytes));
        seen.same(
            "decoder_push",
            returned,
            rust.feed_piece(&mut copy, &bytes),
            &(state, &bytes),
        );
        seen.same(
            "decoder_push, its state",
            state_of(c),
            state_of(rust),
            &(state, &bytes),
        );
        seen.same("decoder_push, its buffer", &buffer, &copy, &(state, &bytes));
        let state = c;
        let byte = random.below(4) as u8;
        let returned = ended(library::decoder_feed(&mut c, &mut buffer, byte));
        let expected = rust.feed_piece(&mut copy, &[byte]);
        seen.same("decoder_feed", returned, expected, &(state, byte));
        seen.same(
            "decoder_feed, its state",
            state_of(c),
            state_of(rust),
            &(state, byte),
        );
        seen.same("decoder_feed, its buffer", &buffer, &copy, &(state, byte));
    }
}

fn encoder(seen: &mut Compared, random: &mut Random) {
    let mut buffer = random.buffer(600);
    let mut copy = buffer.clone();
    let mut c = if random.below(2) == 0 {
        UnbufferedEncoder::new()
    } else {
        UnbufferedEncoder {
            index: random.below(buffer.len() + 3),
            taken: random.below(255) as u8,
            full: random.below(2) as u8,
        }
    };
    let mut rust = c;
    for _ in 0..4 {
        let state = c;
        let bytes = random.bytes();
        let returned = library::encoder_push(&mut c, &mut buffer, &bytes).status == OK;
        let expected = rust.push(&mut copy, &bytes).is_ok();
        seen.same("encoder_push", returned, expected, &(state, &bytes));
        seen.same(
            "encoder_push, its state",
            c,
            rust,
            &(state, &bytes),
        );
        // The byte at the place of the open block's code isn't specified until the block ends.
        if let (Some(place), Some(of_c)) = (copy.get_mut(c.index), buffer.get(c.index)) {
            *place = *of_c;
        }
        seen.same("encoder_push, its buffer", &buffer, &copy, &(state, &bytes));
    }
    let state = c;
    let returned = encoded(library::encoder_finish(&mut c, &mut buffer));
    seen.same("encoder_finish", returned, rust.finalize(&mut copy), &state);
    seen.same("encoder_finish, its buffer", &buffer, &copy, &state);
}

fn main() {
    let rounds = std::env::args()
        .nth(1)
        .map_or(20_000, |word| word.parse().expect("a number"));
    let mut random = Random(0x9E37_79B9_7F4A_7C15);
    let mut seen = Compared(0);
    for _ in 0..rounds {
        encoding(&mut seen, &mut random);
        decoding(&mut seen, &mut random);
        decoder(&mut seen, &mut random);
        encoder(&mut seen, &mut random);
    }
    println!("{} results, none differs", seen.0);
}
