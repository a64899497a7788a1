//! Tests the coders whose buffer is passed to each call: from any state, with any buffer, no call panics, and no call
//! returns a length that is greater than the buffer's.

use jcobs::{DestBufTooSmallError, PushError, UnbufferedDecoder, UnbufferedEncoder};

use crate::FILL;

const LENS: [usize; 12] = [0, 1, 2, 3, 15, 16, 17, 31, 254, 255, 256, 600];
const INDICES: [usize; 15] = [
    0,
    1,
    2,
    3,
    4,
    15,
    16,
    17,
    253,
    254,
    255,
    256,
    599,
    600,
    usize::MAX,
];

/// Each kind of piece that a coder takes at once, and the end of a frame.
fn pieces() -> Vec<Vec<u8>> {
    let run = |len: usize| vec![7; len];
    let mut pieces = vec![
        vec![],
        vec![0],
        vec![1],
        vec![255],
        vec![1; 40],
        vec![0; 40],
    ];
    for len in [2, 7, 8, 15, 16, 17, 32, 64, 253, 254, 255, 600] {
        pieces.push(run(len));
        pieces.push([&run(len)[..], &[0, 3]].concat());
        pieces.push([&[255], &run(len)[..], &[2, 1, 0]].concat());
    }
    pieces
}

fn check_decoder(state: UnbufferedDecoder, len: usize, piece: &[u8]) {
    let place = || format!("{state:?}, a buffer of {len}, {piece:?}");
    let mut dest = vec![FILL; len];
    let mut decoder = state;
    for _ in 0..2 {
        match decoder.push(&mut dest, piece) {
            Ok(None) => {}
            Ok(Some(report)) => {
                assert!(report.frame_size() <= len, "{}", place());
                assert!(
                    (1..=piece.len()).contains(&report.parsed_size()),
                    "{}",
                    place()
                );
                assert!(decoder.is_idle(), "{}", place());
            }
            Err(PushError { parsed_size, .. }) => {
                assert!((1..=piece.len()).contains(&parsed_size), "{}", place());
            }
        }
    }
    let mut decoder = state;
    for &byte in piece.iter().chain(&[0, 2, 9]) {
        if let Ok(Some(message)) = decoder.feed(&mut dest, byte) {
            assert!(message <= len, "{}", place());
        }
        if byte == 0 {
            assert!(decoder.is_idle(), "{}", place());
        }
    }
    for sentinel in [0, 7] {
        let mut decoder = state;
        let ended = match sentinel {
            0 => decoder.feed_piece(&mut dest, piece),
            _ => decoder.feed_piece_with_sentinel(&mut dest, piece, sentinel),
        };
        let Some((end, taken)) = ended else { continue };
        assert_eq!(piece[taken - 1], sentinel, "{}", place());
        assert!(decoder.is_idle(), "{}", place());
        if let jcobs::PieceEnd::Message(message) = end {
            assert!(message <= len, "{}", place());
        }
    }
}

#[test]
fn decoder_from_any_state() {
    let pieces = pieces();
    for missing in [0, 1, 2, 14, 15, 16, 17, 31, 253, 254, 255] {
        for written in INDICES {
            for (joint, too_long) in [(0, 0), (1, 0), (255, 0), (0, 1), (1, 255)] {
                let state = UnbufferedDecoder {
                    written,
                    missing,
                    joint,
                    too_long,
                };
                for len in LENS {
                    for piece in &pieces {
                        check_decoder(state, len, piece);
                    }
                }
            }
        }
    }
}

fn check_encoder(state: UnbufferedEncoder, len: usize, piece: &[u8]) {
    let place = || format!("{state:?}, a buffer of {len}, {piece:?}");
    let UnbufferedEncoder { index, taken, full } = state;
    // The open block, or the full block before it, ends within the buffer.
    let is_within = taken < 254 && index <= len && (full != 0 || usize::from(taken) < len - index);
    let mut dest = vec![FILL; len];
    let mut encoder = state;
    let pushed = encoder.push(&mut dest, piece);
    if pushed.is_err() {
        assert_eq!(encoder, state, "{}", place());
        assert_eq!(dest, vec![FILL; len], "{}", place());
    }
    if !is_within {
        assert_eq!(pushed, Err(DestBufTooSmallError), "{}", place());
    } else if piece.is_empty() {
        assert_eq!(pushed, Ok(()), "{}", place());
    }
    if let Some(byte) = piece.first() {
        let mut other = vec![FILL; len];
        let (mut by_push, mut by_feed) = (state, state);
        let pushed = by_push.push(&mut other, &[*byte]);
        assert_eq!(by_feed.feed(&mut other, *byte), pushed, "{}", place());
        assert_eq!(by_feed, by_push, "{}", place());
    }
    let finished = encoder.finalize(&mut dest);
    match finished {
        Ok(message) => assert!(is_within && message <= len, "{}", place()),
        Err(DestBufTooSmallError) => assert!(!is_within, "{}", place()),
    }
}

#[test]
fn encoder_from_any_state() {
    let pieces = pieces();
    for index in INDICES {
        for taken in [0, 1, 2, 14, 15, 16, 238, 239, 252, 253, 254, 255] {
            for full in [0, 1, 255] {
                let state = UnbufferedEncoder { index, taken, full };
                for len in LENS {
                    for piece in &pieces {
                        check_encoder(state, len, piece);
                    }
                }
            }
        }
    }
}
