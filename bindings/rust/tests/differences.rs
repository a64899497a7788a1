//! Tests the results that differ from those of `cobs` 0.5.1: a test for each row of the repository's
//! `docs/DIFFERENCES.md` that a caller of this crate can observe.
#![cfg(feature = "alloc")]

use std::error::Error;
use std::panic;
use std::thread;

use jcobs::{
    ArrayVec, CobsDecoder, CobsDecoderHeapless, CobsDecoderOwned, CobsEncoder, DecodeError,
    DestBufTooSmallError, decode, decode_in_place, decode_in_place_report, decode_vec,
    decode_with_sentinel, encode, encode_in_place, encode_including_sentinels, encode_vec,
    encode_vec_including_sentinels, encode_with_sentinel, max_encoding_length,
    max_encoding_overhead, try_encode, try_encode_including_sentinels,
};

/// A message whose frame is one full block.
const FULL: [u8; 254] = [7; 254];

#[test]
fn nothing_is_written_without_room() {
    for room in 0..5 {
        let mut dest = vec![0xAA; room];
        assert_eq!(try_encode(b"a\0b\0", &mut dest), Err(DestBufTooSmallError));
        assert_eq!(dest, vec![0xAA; room]);
    }
    for room in 0..7 {
        let mut dest = vec![0xAA; room];
        assert_eq!(
            try_encode_including_sentinels(b"a\0b\0", &mut dest),
            Err(DestBufTooSmallError)
        );
        assert_eq!(dest, vec![0xAA; room]);
    }
}

#[test]
fn last_code_alone_has_no_room() {
    assert_eq!(try_encode(&[], &mut []), Err(DestBufTooSmallError));
    assert_eq!(try_encode(&[0], &mut [0xAA]), Err(DestBufTooSmallError));

    let mut dest = [0xAA];
    let mut encoder = CobsEncoder::new(&mut dest);
    assert_eq!(encoder.push(&[0]), Err(DestBufTooSmallError));
    assert_eq!(encoder.finalize(), 1);
    assert_eq!(dest, [1]);
}

#[test]
fn calls_that_panic_without_room_write_nothing() {
    let calls: [fn(&mut [u8]) -> usize; 3] = [
        |dest| encode(b"hello", dest),
        |dest| encode_including_sentinels(b"hello", dest),
        |dest| encode_with_sentinel(b"hello", dest, 7),
    ];
    for call in calls {
        let mut dest = [0xAA; 5];
        let unwound = panic::catch_unwind(panic::AssertUnwindSafe(|| call(&mut dest)));
        assert!(unwound.is_err());
        assert_eq!(dest, [0xAA; 5]);
    }
}

#[test]
fn message_in_its_own_buffer() {
    for length in [0, 1, 253, 254, 255, 600] {
        for zero in [None, Some(0), Some(length / 2)] {
            let mut message = vec![7; length];
            if let Some(byte) = zero.and_then(|at| message.get_mut(at)) {
                *byte = 0;
            }
            let start = max_encoding_overhead(length);
            let mut buffer = vec![0xAA; start + length + 2];
            buffer[start..start + length].copy_from_slice(&message);
            let before = buffer.clone();
            let end = encode_in_place(&mut buffer, start, length);
            assert_eq!(buffer[..end], encode_vec(&message));
            assert_eq!(buffer[end..], before[end..]);
        }
    }
    for (room, start, length) in [(6, 0, 5), (0, 0, 0), (256, 1, 255), (6, 6, usize::MAX)] {
        let caught = panic::catch_unwind(|| encode_in_place(&mut vec![0; room], start, length));
        let said = *caught.unwrap_err().downcast::<&str>().unwrap();
        assert!(said.starts_with("`start` leaves room"), "{said}");
    }
    for (room, start, length) in [(6, 1, 6), (0, 1, 0), (6, 7, 0), (6, usize::MAX, 1)] {
        let caught = panic::catch_unwind(|| encode_in_place(&mut vec![0; room], start, length));
        let said = *caught.unwrap_err().downcast::<&str>().unwrap();
        assert!(said.starts_with("the message is within"), "{said}");
    }
}

#[test]
fn encoder_over_an_empty_slice() {
    let mut encoder = CobsEncoder::new(&mut []);
    for data in [&b""[..], b"a", b"\0", b"ab", &[0; 32], &FULL, &[0; 300]] {
        assert_eq!(encoder.push(data), Err(DestBufTooSmallError));
    }
    assert_eq!(encoder.finalize(), 0);
}

#[test]
fn rejected_push_changes_nothing() {
    let mut dest = [0xAA; 4];
    let mut encoder = CobsEncoder::new(&mut dest);
    encoder.push(b"a").unwrap();
    assert_eq!(encoder.push(b"bcd"), Err(DestBufTooSmallError));
    encoder.push(b"bc").unwrap();
    assert_eq!(encoder.finalize(), 4);
    assert_eq!(dest, *b"\x04abc");
}

#[test]
fn empty_push_behind_a_full_block() {
    let mut dest = [0xAA; 300];
    let mut encoder = CobsEncoder::new(&mut dest);
    encoder.push(&FULL).unwrap();
    encoder.push(&[]).unwrap();
    assert_eq!(encoder.finalize(), 255);
}

#[test]
fn byte_behind_a_full_last_block_stays() {
    let mut dest = [0xAA; 256];
    assert_eq!(encode(&FULL, &mut dest), 255);
    assert_eq!(dest[255], 0xAA);

    let mut dest = [0xAA; 256];
    let mut encoder = CobsEncoder::new(&mut dest);
    encoder.push(&FULL).unwrap();
    assert_eq!(encoder.finalize(), 255);
    assert_eq!(dest[255], 0xAA);
}

#[test]
fn decoding_for_a_sentinel_reads_the_source_alone() {
    let frame = [0x02, b'x'];
    assert_eq!(
        decode_with_sentinel(&[], &mut [2, 1], 0),
        Err(DecodeError::EmptyFrame)
    );
    assert_eq!(
        decode_with_sentinel(&frame, &mut [], 0),
        Err(DecodeError::TargetBufTooSmall)
    );
    let mut dest = [0xAA; 3];
    assert_eq!(decode_with_sentinel(&frame, &mut dest, 0), Ok(1));
    assert_eq!(dest, [b'x', 0xAA, 0xAA]);
}

#[test]
fn zeros_alone_and_zeros_in_front() {
    let broken = Err(DecodeError::InvalidFrame { decoded_bytes: 0 });
    assert_eq!(decode(&[0, 0], &mut [0; 4]), broken);
    assert_eq!(decode_in_place(&mut [0, 2, 7]), Ok(0));

    let report = decode(&[0, 0, 2, 7, 0, 1], &mut [0; 4]).unwrap();
    assert_eq!((report.parsed_size(), report.frame_size()), (5, 1));
}

#[test]
fn in_place_report_leaves_the_zero_out() {
    for (frame, parsed) in [
        (&b"\x03hi\0"[..], 3),
        (b"\x03hi", 3),
        (b"\0", 0),
        (b"\x01", 1),
        (b"\x01\0", 1),
    ] {
        let report = decode_in_place_report(&mut frame.to_vec()).unwrap();
        assert_eq!(report.parsed_size(), parsed, "{frame:?}");
    }
}

#[test]
fn vector_with_sentinels_has_nothing_behind() {
    assert_eq!(encode_vec_including_sentinels(b""), [0, 1, 0]);
    assert_eq!(encode_vec_including_sentinels(&FULL).len(), 257);
}

#[test]
fn heapless_decoder_has_the_bytes_of_its_vector() {
    let mut vec = ArrayVec::<4>::default();
    vec.push(7);
    vec.push(8);
    assert_eq!((&vec[..], vec.remaining_capacity()), (&[7, 8][..], 2));
    vec[1] = 9;
    assert_eq!(vec.as_mut_slice(), [7, 9]);
    assert_eq!(
        CobsDecoderHeapless::new_with_vec(vec.clone()).dest(),
        [7, 9, 0, 0]
    );
    assert!(vec != ArrayVec::from([7, 9, 0, 0]));
    assert_eq!(CobsDecoderHeapless::new_with_vec([7; 3]).dest(), [7; 3]);
}

#[test]
fn heapless_default_has_its_room() {
    let mut decoder = CobsDecoderHeapless::<8>::default();
    assert_eq!(decoder.dest().len(), 8);
    assert!(decoder.push(b"\x03hi\0").unwrap().is_some());
}

#[test]
fn overflow_is_reported_through_the_zero_and_affects_no_other_frame() {
    let mut decoder = CobsDecoderOwned::new(2);
    for byte in *b"\x04ab" {
        assert_eq!(decoder.feed(byte), Ok(None));
    }
    for byte in *b"c\x01\0" {
        assert_eq!(decoder.feed(byte), Err(DecodeError::TargetBufTooSmall));
    }
    assert_eq!(decoder.push(b"\x02z\0").unwrap().unwrap().frame_size(), 1);

    // A push takes all its bytes if they are within the frame, and otherwise the bytes through the zero that ends it.
    for piece in [&b"\x09abc"[..], b"def"] {
        assert_eq!(decoder.push(piece), Err(DecodeError::TargetBufTooSmall));
        assert_eq!(decoder.parsed_size(), piece.len());
    }
    assert_eq!(decoder.push(b""), Ok(None));
    let last = b"gh\0\x02z\0";
    assert_eq!(decoder.push(last), Err(DecodeError::TargetBufTooSmall));
    assert_eq!(decoder.parsed_size(), 3);
    assert_eq!(decoder.push(&last[3..]).unwrap().unwrap().frame_size(), 1);
}

#[test]
fn broken_frame_costs_no_other() {
    let mut dest = [0; 8];
    let mut decoder = CobsDecoder::new(&mut dest);
    let stream = b"\x05ab\0\x02z\0";
    let broken = DecodeError::InvalidFrame { decoded_bytes: 2 };
    assert_eq!(decoder.push(stream), Err(broken));
    assert_eq!(decoder.parsed_size(), 4);
    let report = decoder.push(&stream[4..]).unwrap().unwrap();
    assert_eq!((report.parsed_size(), report.frame_size()), (3, 1));
}

#[test]
fn reset_forgets_the_open_frame() {
    let mut decoder = CobsDecoderOwned::new(8);
    assert_eq!(decoder.push(b"\x05a"), Ok(None));
    decoder.reset();
    assert_eq!(decoder.push(b"\x02z\0").unwrap().unwrap().frame_size(), 1);
}

#[test]
fn round_trips_at_every_length_round_a_block() {
    for length in (0_usize..260).chain(505..515) {
        for zero_at in [None, Some(0), Some(length / 2), length.checked_sub(1)] {
            let mut message = vec![9; length];
            if let Some(byte) = zero_at.and_then(|at| message.get_mut(at)) {
                *byte = 0;
            }
            let frame = encode_vec(&message);
            assert!(!frame.contains(&0) && frame.len() <= max_encoding_length(length));
            assert_eq!(decode_vec(&frame).as_ref(), Ok(&message));
        }
    }
}

#[test]
fn texts_of_errors() {
    let errors: [(Box<dyn Error + Send + Sync>, &str); 4] = [
        (
            DestBufTooSmallError.into(),
            "out of bounds error during encoding",
        ),
        (DecodeError::EmptyFrame.into(), "empty input frame"),
        (
            DecodeError::InvalidFrame { decoded_bytes: 3 }.into(),
            "frame with invalid format, written 3 to decoded buffer",
        ),
        (
            DecodeError::TargetBufTooSmall.into(),
            "target buffer too small",
        ),
    ];
    for (error, text) in errors {
        assert_eq!(error.to_string(), text);
    }
}

#[test]
fn reset_keeps_how_many_bytes_were_taken() {
    let stream = b"\x05ab\0\x02z\0";
    let mut owned = CobsDecoderOwned::new(8);
    let mut within = CobsDecoderHeapless::<8>::new();
    assert!(owned.push(stream).is_err() && within.push(stream).is_err());
    owned.reset();
    within.reset();
    assert_eq!((owned.parsed_size(), within.parsed_size()), (4, 4));
    for pushed in [owned.push(&stream[4..]), within.push(&stream[4..])] {
        assert_eq!(pushed.unwrap().unwrap().frame_size(), 1);
    }
}

#[test]
fn push_counts_what_it_took() {
    for zeros in 0..40 {
        for len in 0..40 {
            let mut stream = vec![0; zeros];
            let mut frame = [0; 48];
            let frame_len = encode(&FULL[..len], &mut frame);
            stream.extend_from_slice(&frame[..=frame_len]);
            stream.push(9);
            let mut decoder = CobsDecoderOwned::new(40);
            let report = decoder.push(&stream).unwrap().unwrap();
            assert_eq!(report.frame_size(), len);
            assert_eq!(report.parsed_size(), zeros + frame_len + 1);
            assert_eq!(report.parsed_size(), decoder.parsed_size());
        }
    }
}

/// Even in a debug build a call needs little stack, as in the crate `cobs`. If it needed more, the test would abort.
#[test]
fn stack_of_16_kib_is_enough() {
    let calls = || {
        let (message, mut frame, mut dest) = ([7; 249], [0; 251], [0; 250]);
        let len = encode(&message, &mut frame);
        let mut encoder = CobsEncoder::new(&mut dest);
        encoder.push(&message).unwrap();
        assert_eq!((len, encoder.finalize()), (250, 250));

        let report = CobsDecoder::new(&mut dest).push(&frame).unwrap();
        assert_eq!(report.unwrap().frame_size(), 249);
        assert_eq!(decode(&frame, &mut dest).unwrap().frame_size(), 249);
        assert_eq!(decode_with_sentinel(&frame, &mut dest, 0), Ok(249));
        assert_eq!(decode_in_place(&mut frame), Ok(249));
    };
    let thread = thread::Builder::new().stack_size(16 * 1024).spawn(calls);
    thread.unwrap().join().unwrap();
}
