//! Tests ports: every way in which a source may return the bytes of a stream, with each error between the bytes, and
//! every way in which a sink may fail.
#![cfg(feature = "std")]

use std::collections::VecDeque;
use std::io::{self, BufReader, Error, ErrorKind, Read, Write};

use jcobs::{
    CobsDecoderHeapless, DecodeError, FrameReader, FrameSource, MessageReader, MessageWriter, Next,
    ReadFault, Recorded, decode_stream_in_place, encode_frames, encode_frames_room, frames,
};

/// The result of one read of a port.
#[derive(Clone)]
enum Step {
    Bytes(Vec<u8>),
    Fails(ErrorKind),
    Ends,
}

/// A port whose reads have these results, and which ends after them.
struct Port(VecDeque<Step>);

impl Read for Port {
    fn read(&mut self, to: &mut [u8]) -> io::Result<usize> {
        match self.0.pop_front() {
            Some(Step::Fails(kind)) => Err(Error::new(kind, "of the port")),
            None | Some(Step::Ends) => Ok(0),
            Some(Step::Bytes(mut bytes)) => {
                let len = bytes.len().min(to.len());
                to[..len].copy_from_slice(&bytes[..len]);
                if len < bytes.len() {
                    self.0.push_front(Step::Bytes(bytes.split_off(len)));
                }
                Ok(len)
            }
        }
    }
}

/// The result of a call.
#[derive(Debug, PartialEq)]
enum Seen {
    Message(Vec<u8>),
    Frame(DecodeError),
    End,
    Error(ErrorKind),
}

fn next(messages: &mut MessageReader<BufReader<Port>>) -> Seen {
    match messages.read_message() {
        Ok(Some(Ok(message))) => Seen::Message(message.to_vec()),
        Ok(Some(Err(error))) => Seen::Frame(error),
        Ok(None) => Seen::End,
        Err(error) => {
            if error.kind() != ErrorKind::UnexpectedEof {
                assert_eq!(error.to_string(), "of the port");
            }
            Seen::Error(error.kind())
        }
    }
}

/// Reads from a port until its steps are done.
fn read(steps: &[Step], room: usize, buffer: usize) -> Vec<Seen> {
    let port = Port(steps.iter().cloned().collect());
    let mut messages = MessageReader::new(BufReader::with_capacity(buffer, port), room);
    let mut seen = Vec::new();
    loop {
        seen.push(next(&mut messages));
        let is_over = matches!(seen.last(), Some(Seen::End | Seen::Error(_)));
        if is_over && messages.get_ref().get_ref().0.is_empty() {
            return seen;
        }
    }
}

/// Three messages, one of them empty. Between them are a frame that breaks off, and a frame whose message is longer
/// than 5 bytes.
const STREAM: &[u8] = b"\0\x03hi\0\x05cut\0\x01\0\0\x07longer\0\x02a\x02b\0";

fn of_stream() -> Vec<Seen> {
    vec![
        Seen::Message(b"hi".to_vec()),
        Seen::Frame(DecodeError::InvalidFrame { decoded_bytes: 3 }),
        Seen::Message(Vec::new()),
        Seen::Frame(DecodeError::TargetBufTooSmall),
        Seen::Message(b"a\0b".to_vec()),
    ]
}

#[test]
fn each_cut_of_a_stream() {
    for first in 0..=STREAM.len() {
        for second in first..=STREAM.len() {
            for buffer in [1, 2, 5, 64] {
                let pieces = [&STREAM[..first], &STREAM[first..second], &STREAM[second..]];
                let steps: Vec<_> = pieces
                    .iter()
                    .filter(|piece| !piece.is_empty())
                    .map(|piece| Step::Bytes(piece.to_vec()))
                    .collect();
                let mut expected = of_stream();
                expected.push(Seen::End);
                assert_eq!(read(&steps, 5, buffer), expected, "{first}, {second}");
            }
        }
    }
}

#[test]
fn nothing_is_lost_by_an_error() {
    let kinds = [
        ErrorKind::TimedOut,
        ErrorKind::WouldBlock,
        ErrorKind::PermissionDenied,
        ErrorKind::BrokenPipe,
    ];
    for kind in kinds {
        for cut in 0..=STREAM.len() {
            for buffer in [1, 3, 64] {
                let steps = [
                    Step::Bytes(STREAM[..cut].to_vec()),
                    Step::Fails(kind),
                    Step::Fails(kind),
                    Step::Bytes(STREAM[cut..].to_vec()),
                ];
                let steps: Vec<_> = steps
                    .into_iter()
                    .filter(|step| !matches!(step, Step::Bytes(bytes) if bytes.is_empty()))
                    .collect();
                let mut seen = read(&steps, 5, buffer);
                let errors = seen.len();
                seen.retain(|seen| *seen != Seen::Error(kind));
                assert_eq!(errors - seen.len(), 2, "{kind:?} at {cut}");
                seen.retain(|seen| *seen != Seen::End);
                assert_eq!(seen, of_stream(), "{kind:?} at {cut}");
            }
        }
    }
}

#[test]
fn interrupted_reads_are_repeated() {
    let mut steps = Vec::new();
    for byte in STREAM {
        steps.push(Step::Fails(ErrorKind::Interrupted));
        steps.push(Step::Bytes(vec![*byte]));
    }
    let mut expected = of_stream();
    expected.push(Seen::End);
    assert_eq!(read(&steps, 5, 64), expected);
}

#[test]
fn a_cut_frame_is_not_the_end() {
    for cut in 0..=STREAM.len() {
        let within = !matches!(STREAM[..cut].last(), None | Some(0));
        let expected_end = if within {
            Seen::Error(ErrorKind::UnexpectedEof)
        } else {
            Seen::End
        };
        let seen = read(&[Step::Bytes(STREAM[..cut].to_vec())], 5, 64);
        // A source without bytes ends at once.
        if cut > 0 {
            assert_eq!(seen.last(), Some(&expected_end), "{cut}");
        }
        // A source that has ended may grow.
        let steps = [
            Step::Bytes(STREAM[..cut].to_vec()),
            Step::Ends,
            Step::Ends,
            Step::Bytes(STREAM[cut..].to_vec()),
        ];
        if (1..STREAM.len()).contains(&cut) {
            let mut seen = read(&steps, 5, 64);
            assert_eq!(seen.pop(), Some(Seen::End));
            let count = seen.len();
            seen.retain(|seen| *seen != expected_end);
            assert_eq!(count - seen.len(), 2, "{cut}");
            assert_eq!(seen, of_stream(), "{cut}");
        }
    }
}

#[test]
fn as_much_is_read_as_comes() {
    /// Counts the reads.
    struct Counted<'a>(&'a [u8], usize);
    impl Read for Counted<'_> {
        fn read(&mut self, to: &mut [u8]) -> io::Result<usize> {
            self.1 += 1;
            self.0.read(to)
        }
    }
    let stream = [&[255][..], &[7; 254], &[0]].concat().repeat(30);
    let mut messages = MessageReader::new(BufReader::with_capacity(8000, Counted(&stream, 0)), 254);
    for _ in 0..30 {
        assert_eq!(messages.read_message().unwrap(), Some(Ok(&[7; 254][..])));
    }
    assert_eq!(messages.get_ref().get_ref().1, 1);
}

#[test]
fn bytes_after_a_message_stay_in_the_source() {
    let mut messages = MessageReader::new(&b"\x03hi\0rest"[..], 5);
    assert_eq!(messages.read_message().unwrap(), Some(Ok(&b"hi"[..])));
    assert_eq!(messages.get_mut(), b"rest");
    assert_eq!(messages.into_inner(), b"rest");
}

#[test]
fn a_message_of_the_greatest_length_fits() {
    for room in [0, 1, 253, 254, 255, 1000] {
        for len in [room, room + 1] {
            let stream = [&jcobs::encode_vec(&vec![7; len])[..], &[0]].concat();
            let mut messages = MessageReader::new(&stream[..], room);
            let message = messages.read_message().unwrap().unwrap();
            if len == room {
                assert_eq!(message, Ok(&vec![7; len][..]));
            } else {
                assert_eq!(message, Err(DecodeError::TargetBufTooSmall));
            }
            assert!(messages.read_message().unwrap().is_none());
        }
    }
}

/// A sink that takes at most so many bytes in a write, fails after each of these numbers of bytes, and counts the
/// calls.
struct Sink {
    taken: Vec<u8>,
    most: usize,
    before_errors: VecDeque<usize>,
    error: ErrorKind,
    calls: usize,
}

impl Sink {
    fn new(most: usize, before_errors: &[usize], error: ErrorKind) -> Self {
        Self {
            taken: Vec::new(),
            most,
            before_errors: before_errors.iter().copied().collect(),
            error,
            calls: 0,
        }
    }
}

impl Write for Sink {
    fn write(&mut self, bytes: &[u8]) -> io::Result<usize> {
        self.calls += 1;
        assert!(self.calls < 5000, "the writer doesn't end");
        let mut len = bytes.len().min(self.most);
        match self.before_errors.front_mut() {
            Some(0) => {
                self.before_errors.pop_front();
                return Err(self.error.into());
            }
            Some(left) => {
                len = len.min(*left);
                *left -= len;
            }
            None => {}
        }
        self.taken.extend(&bytes[..len]);
        Ok(len)
    }

    fn flush(&mut self) -> io::Result<()> {
        self.calls += 100;
        Ok(())
    }
}

const MESSAGES: [&[u8]; 5] = [b"hello", b"", &[7; 600], b"a\0b", b"\0\0"];

#[test]
fn each_message_is_one_write() {
    let mut messages = MessageWriter::new(Sink::new(usize::MAX, &[], ErrorKind::Other));
    let mut expected = Vec::new();
    for (before, message) in MESSAGES.into_iter().enumerate() {
        messages.write_message(message).unwrap();
        assert_eq!(messages.get_ref().calls, before + 1);
        expected.extend(jcobs::encode_vec(message));
        expected.push(0);
    }
    messages.flush().unwrap();
    messages.get_mut().calls += 1;
    let sink = messages.into_inner();
    assert_eq!(sink.calls, MESSAGES.len() + 101);
    assert_eq!(sink.taken, expected);
}

/// Whatever the port takes in a write, and wherever it fails: each message that the writer takes arrives once, and
/// whole.
#[test]
fn each_message_arrives_once() {
    for error in [
        ErrorKind::WouldBlock,
        ErrorKind::TimedOut,
        ErrorKind::Interrupted,
    ] {
        for message in MESSAGES {
            let whole = jcobs::encode_vec(message).len();
            for first in 0..=whole + 1 {
                for second in [None, Some(0), Some(1), Some(2), Some(255)] {
                    let errors: Vec<_> = [Some(first), second].into_iter().flatten().collect();
                    for most in [1, 2, 7, 255, usize::MAX] {
                        check_writes(message, Sink::new(most, &errors, error));
                    }
                }
            }
        }
    }
}

/// Repeats a call until the port is ready, as a program does. Returns the number of calls.
fn until_ready(mut call: impl FnMut() -> io::Result<()>) -> usize {
    let mut calls = 1;
    while let Err(error) = call() {
        assert!(
            [ErrorKind::WouldBlock, ErrorKind::TimedOut].contains(&error.kind()),
            "{error}"
        );
        calls += 1;
        assert!(calls <= 3);
    }
    calls
}

fn check_writes(message: &[u8], sink: Sink) {
    let place = format!("{} bytes, {:?}", message.len(), sink.before_errors);
    let mut messages = MessageWriter::new(sink);
    let mut expected = Vec::new();
    for each in [message, b"", message, b"more"] {
        until_ready(|| messages.write_message(each));
        expected.extend(jcobs::encode_vec(each));
        expected.push(0);
        assert!(expected.starts_with(&messages.get_ref().taken), "{place}");
    }
    until_ready(|| messages.flush());
    assert_eq!(messages.into_inner().taken, expected, "{place}");
}

/// A port that is gone: the writer takes one message, and returns the error from then on.
#[test]
fn a_port_that_fails_is_reported() {
    let failures = [0; 5];
    let mut messages = MessageWriter::new(Sink::new(9, &failures, ErrorKind::BrokenPipe));
    messages.write_message(b"hi").unwrap();
    for _ in 0..2 {
        let errors = [messages.write_message(b"more"), messages.flush()];
        for error in errors {
            assert_eq!(error.unwrap_err().kind(), ErrorKind::BrokenPipe);
        }
    }
    messages.write_message(b"more").unwrap();
    assert_eq!(messages.into_inner().taken, b"\x03hi\0\x05more\0");
    let mut messages = MessageWriter::new(Sink::new(0, &[], ErrorKind::Other));
    messages.write_message(b"hi").unwrap();
    assert_eq!(messages.flush().unwrap_err().kind(), ErrorKind::WriteZero);
}

/// The nonempty pieces of a stream that a zero ends.
fn pieces(stream: &[u8]) -> (Vec<&[u8]>, &[u8]) {
    let end = stream
        .iter()
        .rposition(|&byte| byte == 0)
        .map_or(0, |at| at + 1);
    let ended = stream[..end].split(|&byte| byte == 0);
    (
        ended.filter(|piece| !piece.is_empty()).collect(),
        &stream[end..],
    )
}

#[test]
fn frames_of_each_short_stream() {
    const BYTES: [u8; 4] = [0, 1, 2, 255];
    for len in 0..=6 {
        for number in 0..BYTES.len().pow(len) {
            let stream: Vec<_> = (0..len)
                .map(|place| BYTES[number / BYTES.len().pow(place) % BYTES.len()])
                .collect();
            let (expected, rest) = pieces(&stream);
            let (least, most) = frames(&stream).size_hint();
            assert!(least <= expected.len() && Some(expected.len()) <= most);
            assert_eq!(
                decode_stream_in_place(&mut stream.clone()).size_hint(),
                (least, most)
            );
            let mut found = frames(&stream);
            for piece in &expected {
                assert_eq!(found.next(), Some(*piece));
            }
            assert_eq!((found.next(), found.remainder()), (None, rest));
            assert_eq!(found.next(), None);

            let mut decoded = stream.clone();
            let mut messages = decode_stream_in_place(&mut decoded);
            for piece in expected {
                let mut copy = piece.to_vec();
                let expected = jcobs::decode_in_place(&mut copy).map(|len| &mut copy[..len]);
                assert_eq!(messages.next(), Some(expected));
            }
            assert_eq!(messages.next(), None);
            assert_eq!(messages.into_remainder(), rest);
        }
    }
}

#[test]
fn streams_of_any_messages() {
    let long: Vec<_> = (0..600)
        .map(|i| if i == 20 { 0 } else { (i % 255) as u8 + 1 })
        .collect();
    for cut in 0..long.len() {
        let (first, second) = long.split_at(cut);
        let messages = [first, &[], second];
        let mut stream = encode_frames(messages).unwrap();
        let mut expected = Vec::new();
        for message in messages {
            expected.extend(jcobs::encode_vec(message));
            expected.push(0);
        }
        assert_eq!(stream, expected);
        assert!(stream.len() <= encode_frames_room(messages).unwrap());
        let found = decode_stream_in_place(&mut stream);
        assert!(found.map(Result::unwrap).eq(messages));
    }
    // The messages are vectors, texts, and the items of an iterator whose length isn't known.
    let stream = b"\x03hi\0\x01\0";
    assert_eq!(encode_frames(&[b"hi".to_vec(), vec![]]).unwrap(), stream);
    assert_eq!(
        encode_frames(vec!["hi".to_owned(), String::new()]).unwrap(),
        stream
    );
    assert_eq!(encode_frames("hi,".split(',')).unwrap(), stream);
    assert_eq!(encode_frames::<[&[u8]; 0]>([]).unwrap(), []);
    assert_eq!(encode_frames_room("hi,".split(',')), Some(6));
}

/// A source that returns one byte for each read. The read with this number returns a zero. The source counts the reads.
struct ByBytes {
    reads: usize,
    zero: usize,
}

impl FrameSource for ByBytes {
    fn read_some(&mut self, chunk: &mut [u8; 64]) -> Option<usize> {
        self.reads += 1;
        chunk[0] = u8::from(self.reads != self.zero);
        Some(1)
    }
}

/// Calls `next_frame` until the source has no more bytes, and again.
fn read_frames(
    reader: &mut FrameReader<CobsDecoderHeapless<5>>,
    source: Vec<Step>,
    seen: &mut Vec<Seen>,
    is_within: bool,
) {
    let mut source = Recorded::new(Port(source.into()));
    let end = Next::End {
        unfinished: is_within,
    };
    loop {
        seen.push(match reader.next_frame(&mut source) {
            Ok(Next::Message(len)) => Seen::Message(reader.decoder().dest()[..len].to_vec()),
            Ok(Next::Broken(decoded_bytes)) => {
                Seen::Frame(DecodeError::InvalidFrame { decoded_bytes })
            }
            Ok(Next::TooLong) => Seen::Frame(DecodeError::TargetBufTooSmall),
            Err(fault) => {
                assert_eq!(fault, ReadFault::Io);
                Seen::Error(ErrorKind::TimedOut)
            }
            Ok(found) => {
                assert_eq!(found, end);
                break;
            }
        });
    }
    assert_eq!(reader.next_frame(&mut source), Ok(end));
}

#[test]
fn each_cut_of_a_stream_by_next_frame() {
    for first in 0..=STREAM.len() {
        for second in first..=STREAM.len() {
            let mut reader = FrameReader::new(CobsDecoderHeapless::new());
            let mut seen = Vec::new();
            // Each part comes from another source, and in the second source a read fails.
            for (from, to) in [(0, first), (first, second), (second, STREAM.len())] {
                let is_within = to > 0 && STREAM[to - 1] != 0;
                let mut steps = vec![Step::Bytes(STREAM[from..to].to_vec())];
                steps.retain(|step| !matches!(step, Step::Bytes(bytes) if bytes.is_empty()));
                if from == first {
                    steps.insert(0, Step::Fails(ErrorKind::TimedOut));
                }
                read_frames(&mut reader, steps, &mut seen, is_within);
            }
            let errors = seen.len();
            seen.retain(|seen| !matches!(seen, Seen::Error(_)));
            assert!(errors > seen.len());
            assert_eq!(seen, of_stream(), "{first}, {second}");
        }
    }
}

#[test]
fn a_call_reads_65536_times() {
    for zero in [65_535, 65_536, 65_537] {
        let mut reader = FrameReader::new(CobsDecoderHeapless::<65_536>::new());
        let mut source = ByBytes { reads: 0, zero };
        // Every block is a code without bytes: the message has one byte fewer than there are codes.
        let message = Ok(Next::Message(zero - 2));
        if zero > 65_536 {
            let fault = reader.next_frame(&mut source);
            assert_eq!(
                (fault, source.reads),
                (Err(ReadFault::TooManyReads), 65_536)
            );
        }
        assert_eq!(
            (reader.next_frame(&mut source), source.reads),
            (message, zero)
        );
    }
}

#[test]
fn a_dropped_frame_is_invalid_data() {
    let mut messages = MessageReader::new(&b"\x09cut\0\x06hello\0"[..], 4);
    for dropped in [
        DecodeError::InvalidFrame { decoded_bytes: 3 },
        DecodeError::TargetBufTooSmall,
    ] {
        let found = messages.read_message().unwrap().unwrap().unwrap_err();
        assert_eq!(found, dropped);
        let error = Error::from(found);
        assert_eq!(error.kind(), ErrorKind::InvalidData);
        assert_eq!(error.downcast::<DecodeError>().unwrap(), dropped);
    }
}
