//! Tests that a push has the result of its bytes fed one by one, and that `decode_with_sentinel` has the result of the
//! proved call. Short data has separate code.

use jcobs::{CobsDecoder, DecodeError};

/// Feeds the bytes one by one, as many as a push of them would take. Returns their number, and the last result.
fn fed(decoder: &mut CobsDecoder<'_>, data: &[u8]) -> (usize, Result<Option<usize>, DecodeError>) {
    let mut result = Ok(None);
    for (before, &byte) in data.iter().enumerate() {
        let next = decoder.feed(byte);
        match next {
            // All bytes of a frame that is too long are taken, through the zero that ends it.
            Err(DecodeError::TargetBufTooSmall) if byte != 0 => result = next,
            Ok(None) => {}
            _ => return (before + 1, next),
        }
    }
    (data.len(), result)
}

/// Pushes the bytes, and after each result the bytes that are left, until none is left.
fn compare(room: usize, pieces: [&[u8]; 3]) {
    let (mut dest, mut dest_of_fed) = ([0xAA; 24], [0xAA; 24]);
    let mut pushed = CobsDecoder::new(&mut dest[..room]);
    let mut by_bytes = CobsDecoder::new(&mut dest_of_fed[..room]);
    for piece in pieces {
        let mut rest = piece;
        loop {
            let report = pushed.push(rest);
            let (taken, result) = fed(&mut by_bytes, rest);
            let place = format!("{rest:?} of {pieces:?}, room for {room}");
            assert_eq!(pushed.parsed_size(), taken, "{place}");
            if let Ok(Some(report)) = report {
                assert_eq!(report.parsed_size(), taken, "{place}");
            }
            assert_eq!(report.map(|r| r.map(|r| r.frame_size())), result, "{place}");
            assert_eq!(pushed.dest(), by_bytes.dest(), "{place}");
            rest = &rest[taken..];
            if rest.is_empty() {
                break;
            }
        }
    }
}

#[test]
fn short_pushes_are_feeds() {
    const BYTES: [u8; 6] = [0, 1, 2, 3, 9, 255];
    // Each state that a push can begin in.
    let starts: [&[u8]; 9] = [
        b"",
        b"\x01",
        b"\x02",
        b"\x03a",
        b"\x01\x01",
        b"\xFF",
        b"\xFFa",
        b"\x09abcde",
        b"\x09a\0",
    ];
    for start in starts {
        for room in 0..=4 {
            for number in 0..BYTES.len().pow(4) {
                let digits =
                    [0, 1, 2, 3].map(|place| number / BYTES.len().pow(place) % BYTES.len());
                let data = digits.map(|digit| BYTES[digit]);
                for length in 2..=data.len() {
                    compare(room, [start, &data[..length], b""]);
                }
            }
        }
    }
}

#[test]
fn short_frames_are_feeds() {
    // A block, or its first bytes, with a zero at one place or none, and with bytes after it.
    for code in 1..=20 {
        for zero in 0..=24 {
            let mut data = [7; 24];
            data[0] = code;
            if let Some(byte) = data.get_mut(zero) {
                *byte = 0;
            }
            let len = usize::from(code) - 1;
            for room in [0, len.saturating_sub(1), len, len + 1, 24] {
                for length in 2..=data.len() {
                    for start in [b"".as_slice(), b"\x02", b"\x05abcd"] {
                        compare(room, [start, &data[..length], &data]);
                    }
                }
            }
        }
    }
}
