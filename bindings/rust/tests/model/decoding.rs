//! Decodes frames to messages, with each length of the buffer and each cut of the frame.

use jcobs::{CobsDecoder, DecodeError, FrameKind, UnbufferedDecoder};

use crate::grammar::{Decoder, encoded};
use crate::{ALL, FILL, messages, some_messages};

/// The results of the zeros of a stream: the number of bytes before each result, and the contents of the buffer then.
type Results = Vec<(usize, Result<usize, DecodeError>, Vec<u8>)>;

/// A stream, and the results of its zeros if the buffer has this room.
struct Case {
    stream: Vec<u8>,
    room: usize,
    results: Results,
    /// For each byte, whether its message is too long at this byte.
    too_long: Vec<bool>,
}

/// Returns a buffer that begins with as many of these bytes as fit.
fn filled(bytes: &[u8], room: usize) -> Vec<u8> {
    let mut dest = vec![FILL; room];
    let fits = bytes.len().min(room);
    dest[..fits].copy_from_slice(&bytes[..fits]);
    dest
}

impl Case {
    fn of(stream: Vec<u8>, room: usize) -> Self {
        let mut decoder = Decoder::default();
        let (mut results, mut too_long) = (Vec::new(), Vec::new());
        for (at, &byte) in stream.iter().enumerate() {
            let dest = (byte == 0).then(|| filled(&decoder.output, room));
            let result = decoder.take(byte, room);
            too_long.push(result == Err(DecodeError::TargetBufTooSmall));
            if let (Some(dest), Some(result)) = (dest, result.transpose()) {
                results.push((at + 1, result, dest));
            }
        }
        Self {
            stream,
            room,
            results,
            too_long,
        }
    }

    /// Compares the results of a coder that takes bytes and a buffer, and returns how many bytes it took, and the
    /// result.
    fn check(
        &self,
        cut: usize,
        mut take: impl FnMut(&mut [u8], &[u8]) -> (usize, Option<Result<usize, DecodeError>>),
    ) {
        let place = || format!("{:?} cut at {cut}, room for {}", self.stream, self.room);
        let mut dest = vec![FILL; self.room];
        let mut results = self.results.iter();
        let mut at = 0;
        for end in [cut, self.stream.len()] {
            while at < end {
                let (taken, result) = take(&mut dest, &self.stream[at..end]);
                assert!(taken > 0, "{}", place());
                at += taken;
                match result {
                    Some(result) if self.stream[at - 1] == 0 => {
                        let expected = results.next().expect("a zero has a result");
                        assert_eq!((at, result), (expected.0, expected.1), "{}", place());
                        assert_eq!(dest, expected.2, "{}", place());
                        dest.fill(FILL);
                    }
                    Some(result) => {
                        assert_eq!(result, Err(DecodeError::TargetBufTooSmall), "{}", place());
                        assert!(self.too_long[at - 1], "{}", place());
                    }
                    None => assert_eq!(at, end, "{}", place()),
                }
            }
        }
        assert!(results.next().is_none(), "{}", place());
    }

    /// Decodes by each call that takes a piece.
    fn check_pushes(&self, cut: usize) {
        let mut decoder = UnbufferedDecoder::new();
        self.check(cut, |dest, bytes| match decoder.push(dest, bytes) {
            Ok(None) => (bytes.len(), None),
            Ok(Some(report)) => (report.parsed_size(), Some(Ok(report.frame_size()))),
            Err(rejected) => (rejected.parsed_size, Some(Err(rejected.into()))),
        });
        let mut decoder = UnbufferedDecoder::new();
        self.check(cut, |dest, bytes| match decoder.feed_piece(dest, bytes) {
            None => (bytes.len(), None),
            Some((end, taken)) => (taken, Some(end.into_result())),
        });
        self.check_buffered(cut);
        // The other two coders are slow here, and do the same step for each byte: they are tested at every fifth cut or
        // room.
        if (cut + self.room) % 5 != 0 {
            return;
        }
        let mut decoder = UnbufferedDecoder::new();
        let sentinel = [0, 7, 0xFF][cut % 3];
        self.check(cut, |dest, bytes| {
            let xored: Vec<_> = bytes.iter().map(|byte| byte ^ sentinel).collect();
            match decoder.feed_piece_with_sentinel(dest, &xored, sentinel) {
                None => (bytes.len(), None),
                Some((end, taken)) => (taken, Some(end.into_result())),
            }
        });
        #[cfg(feature = "std")]
        self.check_reader(cut);
    }

    /// Decodes with the reader of messages, from a source of two parts.
    #[cfg(feature = "std")]
    fn check_reader(&self, cut: usize) {
        use std::io::Read;

        let place = || format!("{:?} cut at {cut}, room for {}", self.stream, self.room);
        let (first, second) = self.stream.split_at(cut);
        let mut reader = jcobs::MessageReader::new(first.chain(second), self.room);
        for (_, result, dest) in &self.results {
            let message = reader.read_message().expect("no error");
            let expected = result.map(|len| &dest[..len]);
            assert_eq!(message, Some(expected), "{}", place());
        }
        let end = reader.read_message().expect("the stream ends in a zero");
        assert_eq!(end, None, "{}", place());
    }

    /// Decodes with the decoder that borrows its buffer. The buffer is copied to that of `check` after each call.
    fn check_buffered(&self, cut: usize) {
        let mut buffer = vec![FILL; self.room];
        let mut decoder = CobsDecoder::new(&mut buffer);
        let mut pushed = 0;
        self.check(cut, |dest, bytes| {
            let result = decoder.push(bytes);
            let taken = decoder.parsed_size();
            dest.copy_from_slice(decoder.dest());
            if let Ok(Some(report)) = result {
                assert_eq!(report.parsed_size(), taken);
            }
            if bytes[taken - 1] == 0 {
                decoder.dest_mut().fill(FILL);
            }
            // Unlike the others, this decoder says at the end of each push that the message is too long.
            pushed += taken;
            if taken == bytes.len() && bytes[taken - 1] != 0 {
                let expected = Err(DecodeError::TargetBufTooSmall);
                assert_eq!(result == expected, self.too_long[pushed - 1]);
            }
            (
                taken,
                result
                    .map(|report| report.map(|report| report.frame_size()))
                    .transpose(),
            )
        });
    }

    /// Feeds the bytes one by one.
    fn check_feeds(&self) {
        let mut decoder = UnbufferedDecoder::new();
        self.check(0, |dest, bytes| {
            for (before, &byte) in bytes.iter().enumerate() {
                if let Some(result) = decoder.feed(dest, byte).transpose() {
                    return (before + 1, Some(result));
                }
            }
            (bytes.len(), None)
        });
    }
}

/// Returns the frame of a message and a zero, and then the frame of a short message and a zero.
fn stream(message: &[u8]) -> Vec<u8> {
    [&encoded(message)[..], b"\0\x03hi\0"].concat()
}

/// Calls the functions for a whole frame, with the frame cut to this length.
fn check_whole(message: &[u8], room: usize, frame: &[u8]) {
    let place = || format!("{frame:?}, room for {room}");
    let mut decoder = Decoder::default();
    for byte in frame {
        let _ = decoder.take(*byte, room);
    }
    let expected = match frame {
        [] => Err(DecodeError::EmptyFrame),
        _ => decoder.ended(room),
    };
    let mut dest = vec![FILL; room];
    let report = jcobs::decode(frame, &mut dest);
    let result = report.map(|report| {
        assert_eq!(report.parsed_size(), frame.len(), "{}", place());
        Some(report.frame_size())
    });
    assert_eq!(result, expected, "{}", place());
    assert_eq!(dest, filled(&decoder.output, room), "{}", place());

    // The other functions keep only the whole blocks of a frame that breaks off.
    let is_frame = !frame.is_empty() && decoder.ended(message.len()).is_ok();
    if !is_frame {
        decoder.output.truncate(decoder.before);
    }
    let kept = &decoder.output[..];
    let expected = |room| match frame {
        [] => Err(DecodeError::EmptyFrame),
        _ if kept.len() > room => Err(DecodeError::TargetBufTooSmall),
        _ if is_frame => Ok(kept.len()),
        _ => Err(DecodeError::InvalidFrame {
            decoded_bytes: kept.len(),
        }),
    };
    // The frame, with bytes after it, is decoded for a sentinel that it doesn't contain.
    let sentinel = [0, FILL, 0xFF][room % 3];
    let xored: Vec<_> = frame.iter().map(|byte| byte ^ sentinel).collect();
    let ended = [&xored[..], &[sentinel, 2, sentinel]].concat();
    let ended = if frame.is_empty() { &[] } else { &ended[..] };
    for source in [&xored, ended] {
        let mut dest = vec![FILL; room];
        let len = jcobs::decode_with_sentinel(source, &mut dest, sentinel);
        assert_eq!(len, expected(room), "{}", place());
        assert_eq!(dest, filled(kept, room), "{}", place());

        let mut buffer: Vec<_> = source.iter().map(|byte| byte ^ sentinel).collect();
        let before = buffer.clone();
        let len = jcobs::decode_in_place(&mut buffer);
        assert_eq!(len, expected(usize::MAX), "{}", place());
        assert_eq!(&buffer[..kept.len()], kept, "{}", place());
        if is_frame {
            assert_eq!(&buffer[kept.len()..], &before[kept.len()..], "{}", place());
        }
        let mut buffer = source.to_vec();
        let len = jcobs::decode_in_place_with_sentinel(&mut buffer, sentinel);
        assert_eq!(len, expected(usize::MAX), "{}", place());
        assert_eq!(&buffer[..kept.len()], kept, "{}", place());
    }
    if room == message.len() {
        check_kind(frame, is_frame.then_some(kept));
    }
}

/// Calls the function for the kind of a frame. The bytes are the frame of this message, or no frame.
fn check_kind(frame: &[u8], message: Option<&[u8]>) {
    let kind = match message {
        None => FrameKind::NotAFrame,
        Some(message) if encoded(message) == frame => FrameKind::Canonical,
        Some(_) => FrameKind::Longer,
    };
    assert_eq!(jcobs::frame_kind(frame), kind, "{frame:?}");
    for zero in [0, frame.len() / 2, frame.len()] {
        let mut with_zero = frame.to_vec();
        with_zero.insert(zero, 0);
        let kind = jcobs::frame_kind(&with_zero);
        assert_eq!(kind, FrameKind::NotAFrame, "{with_zero:?}");
    }
}

/// Tests frames of messages that end with a full block, with and without a block 1 after it.
#[test]
fn two_frames_of_a_message() {
    for blocks in [1, 2, 3] {
        for front in 0..=64 {
            let mut message = vec![0; front];
            message.extend((0..254 * blocks).map(|at| 100 + (at % 100) as u8));
            let mut frame = encoded(&message);
            check_kind(&frame, Some(&message));
            frame.push(1);
            check_kind(&frame, Some(&message));
            check_whole(&message, message.len(), &frame);
            frame.push(1);
            message.push(0);
            check_kind(&frame, Some(&message));
        }
    }
}

#[test]
fn the_least_room() {
    messages(&[&[], &[0, 7, 7]], |message| {
        let stream = stream(message);
        let frame = &stream[..stream.len() - 5];
        check_whole(message, message.len(), frame);
        check_whole(message, message.len(), &frame[..frame.len() - 1]);
        let case = Case::of(stream, message.len().max(2));
        case.check_pushes(case.stream.len() / 2);
        case.check_feeds();
    });
}

#[test]
fn each_room() {
    let check = |message: &[u8]| {
        let stream = stream(message);
        for room in 0..=message.len() + 1 {
            check_whole(message, room, &stream[..stream.len() - 5]);
            let case = Case::of(stream.clone(), room);
            case.check_pushes(stream.len() / 3);
            case.check_feeds();
        }
    };
    if ALL {
        messages(&[&[]], check);
    } else {
        some_messages(&[&[]], check);
    }
}

#[test]
fn each_cut() {
    let check = |message: &[u8]| {
        let case = Case::of(stream(message), message.len().max(2));
        // Here the zero breaks off the frame.
        let mut broken = case.stream.clone();
        broken.remove(broken.len() - 6);
        let broken = Case::of(broken, message.len().max(2));
        for cut in 0..=case.stream.len() {
            case.check_pushes(cut);
            check_whole(
                message,
                message.len(),
                &case.stream[..cut.min(case.stream.len() - 5)],
            );
            if cut < case.stream.len() {
                broken.check_pushes(cut);
            }
        }
    };
    if ALL {
        messages(&[&[]], check);
    } else {
        some_messages(&[&[]], check);
    }
}
