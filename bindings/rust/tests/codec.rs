//! Tests the codec for tokio: every cut of a stream, the end of a stream, and the bytes that are sent.
#![cfg(feature = "tokio-util")]

use std::io::ErrorKind;

use bytes::{Bytes, BytesMut};
use jcobs::{DecodeError, MessageCodec};
use tokio_util::codec::{Decoder, Encoder};

/// Three messages, one of them empty. Between them are a frame that breaks off, and a frame whose message is longer
/// than 5 bytes.
const STREAM: &[u8] = b"\0\x03hi\0\x05cut\0\x01\0\0\x07longer\0\x02a\x02b\0";

fn of_stream() -> Vec<Result<Bytes, DecodeError>> {
    vec![
        Ok(Bytes::from_static(b"hi")),
        Err(DecodeError::InvalidFrame { decoded_bytes: 3 }),
        Ok(Bytes::new()),
        Err(DecodeError::TargetBufTooSmall),
        Ok(Bytes::from_static(b"a\0b")),
    ]
}

#[test]
fn each_cut_of_a_stream() {
    for first in 0..=STREAM.len() {
        for second in first..=STREAM.len() {
            let mut codec = MessageCodec::new(5);
            let mut bytes = BytesMut::new();
            let mut received = Vec::new();
            for piece in [&STREAM[..first], &STREAM[first..second], &STREAM[second..]] {
                bytes.extend_from_slice(piece);
                while let Some(message) = codec.decode(&mut bytes).unwrap() {
                    received.push(message);
                }
                assert!(bytes.is_empty());
            }
            assert_eq!(received, of_stream(), "{first}, {second}");
            assert_eq!(codec.decode_eof(&mut bytes).unwrap(), None);
        }
    }
}

#[test]
fn each_end_of_a_stream() {
    for cut in 0..=STREAM.len() {
        let mut codec = MessageCodec::new(5);
        let mut bytes = BytesMut::from(&STREAM[..cut]);
        let mut received = Vec::new();
        let end = loop {
            match codec.decode_eof(&mut bytes) {
                Ok(Some(message)) => received.push(message),
                Ok(None) => break None,
                Err(error) => break Some(error.kind()),
            }
        };
        let is_within = cut > 0 && STREAM[cut - 1] != 0;
        assert_eq!(end, is_within.then_some(ErrorKind::UnexpectedEof), "{cut}");
        assert_eq!(received, of_stream()[..received.len()], "{cut}");
    }
}

#[test]
fn what_is_sent_is_received() {
    let long: Vec<_> = (0..600u16).map(|i| (i % 256) as u8).collect();
    for capacity in [0, 1, 10, 2000] {
        let mut codec = MessageCodec::new(600);
        let mut bytes = BytesMut::with_capacity(capacity);
        let mut expected = Vec::new();
        for len in (0..20).chain(240..270).chain(500..=600) {
            codec.encode(&long[..len], &mut bytes).unwrap();
            expected.extend(jcobs::encode_vec(&long[..len]));
            expected.push(0);
        }
        assert_eq!(bytes, expected[..]);
        for len in (0..20).chain(240..270).chain(500..=600) {
            let message = codec.decode(&mut bytes).unwrap().unwrap();
            assert_eq!(message.unwrap(), long[..len]);
        }
        assert_eq!(codec.decode_eof(&mut bytes).unwrap(), None);
    }
}
