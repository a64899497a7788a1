//! Runs the cases of the repository's `conformance/` with the calls of this crate. All calls need the feature `std`.
//! `conformance/README.md` has the format of the cases.

use std::fmt::Write as _;
use std::fs;
use std::path::Path;

use jcobs::{
    CobsDecoder, CobsDecoderHeapless, CobsEncoder, DecodeError, DecodeReport, DecodeResult,
    DecoderState, DestBufTooSmallError, EncoderState, FrameKind, FrameReader, FrameSource, Next,
    PushResult, ReadFault,
};
#[cfg(feature = "alloc")]
use jcobs::{CobsDecoderOwned, FrameOutcome};

/// The words of a result, as the files write them.
type Words = Vec<String>;

#[test]
fn vectors() {
    let folder = Path::new(env!("CARGO_MANIFEST_DIR")).join("../../conformance");
    let mut files: Vec<_> = fs::read_dir(&folder)
        .expect("the repository's conformance/")
        .map(|entry| entry.expect("an entry").path())
        .filter(|path| path.extension().is_some_and(|extension| extension == "txt"))
        .collect();
    files.sort();

    let mut run = 0;
    let mut differing = Vec::new();
    for file in files {
        let text = fs::read_to_string(&file).expect("a file of text");
        for line in text.lines() {
            if line.is_empty() || line.starts_with('#') {
                continue;
            }
            let line = line
                .split(' ')
                .map(written_out)
                .collect::<Vec<_>>()
                .join(" ");
            let (case, expected) = line.split_once(" ->").expect("a result");
            let expected: Vec<_> = expected.split_whitespace().collect();
            let words: Vec<_> = case.split(' ').collect();
            let [name, level, call, arguments @ ..] = words.as_slice() else {
                panic!("no case: {line}");
            };
            let Some(results) = results(call, arguments) else {
                assert!(
                    cfg!(not(feature = "alloc")) && call.contains("_vec"),
                    "{call}"
                );
                continue;
            };
            run += 1;
            for returned in results {
                let expected = if returned.by_pushes {
                    expected_of_pushes(&expected, arguments)
                } else {
                    expected.clone()
                };
                if !agrees(&returned.words, &expected, *level == "owed") {
                    differing.push(format!("{name}: {}", returned.words.join(" ")));
                }
            }
        }
    }
    println!("{run} cases");
    assert!(differing.is_empty(), "{}", differing.join("\n"));
    assert!(
        run > 6000 || cfg!(not(feature = "alloc")) && run > 3000,
        "{run} cases alone"
    );
}

/// Returns a word with its parts written out: the digits of each part, repeated as often as the number after the star
/// says.
fn written_out(word: &str) -> String {
    word.split('+')
        .map(|part| match part.split_once('*') {
            Some((digits, count)) => digits.repeat(number(count)),
            None => part.to_owned(),
        })
        .collect()
}

/// The result of a call, made in one of several ways.
struct CallResult {
    words: Words,
    /// Whether a streaming decoder got pieces, not single bytes.
    by_pushes: bool,
}

fn agrees(found: &[String], expected: &[&str], owed: bool) -> bool {
    let errors = ["empty", "invalid", "too_small", "broken", "too_long"];
    found.len() == expected.len()
        && expected.iter().zip(found).all(|(expected, found)| {
            *expected == "?"
                || expected == found
                || owed && *expected == "refused" && errors.contains(&found.as_str())
        })
}

/// Turns the results of single bytes into the results of pushes. An overflow is reported once for each push: at the
/// zero that ends the frame, and at the end of each push.
fn expected_of_pushes<'a>(expected: &[&'a str], arguments: &[&str]) -> Vec<&'a str> {
    let mut stream = Vec::new();
    let mut ends = Vec::new();
    for piece in arguments[1..].iter().filter(|piece| **piece != "reset") {
        stream.extend(bytes(piece));
        ends.push(stream.len());
    }
    let (buffer, results) = expected.split_first().expect("the buffer");
    let mut kept = vec![*buffer];
    for returned in results.chunks(3) {
        let place = number(returned[0]);
        if returned[1] != "too_small" || stream[place - 1] == 0 || ends.contains(&place) {
            kept.extend_from_slice(returned);
        }
    }
    kept
}

fn bytes(word: &str) -> Vec<u8> {
    if word == "-" {
        return Vec::new();
    }
    (0..word.len())
        .step_by(2)
        .map(|at| u8::from_str_radix(&word[at..at + 2], 16).expect("hexadecimal digits"))
        .collect()
}

fn byte(word: &str) -> u8 {
    bytes(word)[0]
}

fn number(word: &str) -> usize {
    word.parse().expect("a number")
}

fn hex(bytes: &[u8]) -> String {
    if bytes.is_empty() {
        return "-".to_owned();
    }
    bytes.iter().fold(String::new(), |mut text, byte| {
        write!(text, "{byte:02x}").expect("a string takes it");
        text
    })
}

/// Returns the result of each way to make the call, or `None` if this crate doesn't have the call.
fn results(call: &str, arguments: &[&str]) -> Option<Vec<CallResult>> {
    let all_bytes = |ways: Vec<Words>| {
        ways.into_iter()
            .map(|words| CallResult {
                words,
                by_pushes: false,
            })
            .collect()
    };
    Some(match (call, arguments) {
        ("decoder", [buffer, pieces @ ..]) => decoder(&bytes(buffer), pieces),
        ("decode_stream", [room, pieces @ ..]) => all_bytes(vec![
            by_pushes(number(room), pieces),
            #[cfg(feature = "alloc")]
            decode_stream(number(room), pieces),
        ]),
        ("next_frame", [room, reads @ ..]) => all_bytes(vec![next_frame(number(room), reads)]),
        _ => all_bytes(vec![
            encoding(call, arguments)
                .or_else(|| decoding(call, arguments))
                .or_else(|| states(call, arguments))?,
        ]),
    })
}

fn encoding(call: &str, arguments: &[&str]) -> Option<Words> {
    Some(match (call, arguments) {
        ("max_encoding_overhead", [len]) => {
            vec![jcobs::max_encoding_overhead(number(len)).to_string()]
        }
        ("max_encoding_length", [len]) => {
            vec![jcobs::max_encoding_length(number(len)).to_string()]
        }
        #[cfg(feature = "alloc")]
        ("encode_vec", [message]) => vec![hex(&jcobs::encode_vec(&bytes(message)))],
        #[cfg(feature = "alloc")]
        ("encode_vec_including_sentinels", [message]) => {
            vec![hex(&jcobs::encode_vec_including_sentinels(&bytes(message)))]
        }
        #[cfg(feature = "alloc")]
        ("encode_vec_with_sentinel", [sentinel, message]) => {
            let frame = jcobs::encode_vec_with_sentinel(&bytes(message), byte(sentinel));
            vec![hex(&frame)]
        }
        #[cfg(feature = "alloc")]
        ("encode_frames", messages) => {
            let messages: Vec<_> = messages.iter().map(|message| bytes(message)).collect();
            vec![hex(
                &jcobs::encode_frames(&messages).expect("there is memory")
            )]
        }
        #[cfg(not(feature = "alloc"))]
        ("encode_frames", messages) => {
            let mut frames = Vec::new();
            for message in messages {
                let message = bytes(message);
                let mut frame = vec![0; jcobs::max_encoding_length(message.len()) + 1];
                let length = jcobs::encode(&message, &mut frame);
                frames.extend(&frame[..=length]);
            }
            vec![hex(&frames)]
        }
        ("encode", [message, buffer]) => {
            written(buffer, |dest| jcobs::encode(&bytes(message), dest))
        }
        ("encode_including_sentinels", [message, buffer]) => written(buffer, |dest| {
            jcobs::encode_including_sentinels(&bytes(message), dest)
        }),
        ("encode_with_sentinel", [sentinel, message, buffer]) => written(buffer, |dest| {
            jcobs::encode_with_sentinel(&bytes(message), dest, byte(sentinel))
        }),
        ("try_encode", [message, buffer]) => {
            tried(buffer, |dest| jcobs::try_encode(&bytes(message), dest))
        }
        ("try_encode_including_sentinels", [message, buffer]) => tried(buffer, |dest| {
            jcobs::try_encode_including_sentinels(&bytes(message), dest)
        }),
        ("try_encode_with_sentinel", [sentinel, message, buffer]) => tried(buffer, |dest| {
            jcobs::try_encode_with_sentinel(&bytes(message), dest, byte(sentinel))
        }),
        ("encoder", [buffer, pieces @ ..]) => encoder(buffer, pieces),
        _ => return None,
    })
}

fn written(buffer: &str, encode: impl FnOnce(&mut [u8]) -> usize) -> Words {
    let mut dest = bytes(buffer);
    let length = encode(&mut dest);
    vec![length.to_string(), hex(&dest)]
}

fn tried(
    buffer: &str,
    encode: impl FnOnce(&mut [u8]) -> Result<usize, DestBufTooSmallError>,
) -> Words {
    let mut dest = bytes(buffer);
    let (status, length) = match encode(&mut dest) {
        Ok(length) => ("ok", length.to_string()),
        Err(DestBufTooSmallError) => ("too_small", "-".to_owned()),
    };
    vec![status.to_owned(), length, hex(&dest)]
}

fn encoder(buffer: &str, pieces: &[&str]) -> Words {
    let mut dest = bytes(buffer);
    let mut encoder = CobsEncoder::new(&mut dest);
    let pushed: Vec<_> = pieces
        .iter()
        .map(|piece| match encoder.push(&bytes(piece)) {
            Ok(()) => "ok".to_owned(),
            Err(DestBufTooSmallError) => "too_small".to_owned(),
        })
        .collect();
    let length = encoder.finalize();
    [vec![length.to_string(), hex(&dest)], pushed].concat()
}

fn decoding(call: &str, arguments: &[&str]) -> Option<Words> {
    Some(match (call, arguments) {
        #[cfg(feature = "alloc")]
        ("decode_vec", [source]) => message(jcobs::decode_vec(&bytes(source))),
        #[cfg(feature = "alloc")]
        ("decode_vec_with_sentinel", [sentinel, source]) => message(
            jcobs::decode_vec_with_sentinel(&bytes(source), byte(sentinel)),
        ),
        ("decode", [source, buffer]) => {
            let mut dest = bytes(buffer);
            let mut words = reported(jcobs::decode(&bytes(source), &mut dest));
            words.push(hex(&dest));
            words
        }
        ("decode_with_sentinel", [sentinel, source, buffer]) => {
            let mut dest = bytes(buffer);
            let size = jcobs::decode_with_sentinel(&bytes(source), &mut dest, byte(sentinel));
            let mut words = sized(size);
            words.push(hex(&dest));
            words
        }
        ("decode_in_place", [buffer]) => {
            let mut buff = bytes(buffer);
            let mut words = sized(jcobs::decode_in_place(&mut buff));
            words.push(hex(&buff));
            words
        }
        ("decode_in_place_report", [buffer]) => {
            let mut buff = bytes(buffer);
            let mut words = reported(jcobs::decode_in_place_report(&mut buff));
            words.push(hex(&buff));
            words
        }
        ("decode_in_place_with_sentinel", [sentinel, buffer]) => {
            let mut buff = bytes(buffer);
            let size = jcobs::decode_in_place_with_sentinel(&mut buff, byte(sentinel));
            let mut words = sized(size);
            words.push(hex(&buff));
            words
        }
        ("frame_kind", [bytes_word]) => {
            let kind = match jcobs::frame_kind(&bytes(bytes_word)) {
                FrameKind::NotAFrame => "not_a_frame",
                FrameKind::Canonical => "canonical",
                FrameKind::Longer => "longer",
            };
            vec![kind.to_owned()]
        }
        _ => return None,
    })
}

/// The status and the length.
fn sized(size: Result<usize, DecodeError>) -> Words {
    let (status, length) = match size {
        Ok(length) => ("ok", length.to_string()),
        Err(DecodeError::EmptyFrame) => ("empty", "-".to_owned()),
        Err(DecodeError::InvalidFrame { decoded_bytes }) => ("invalid", decoded_bytes.to_string()),
        Err(DecodeError::TargetBufTooSmall) => ("too_small", "-".to_owned()),
    };
    vec![status.to_owned(), length]
}

/// The status, the bytes consumed and the length.
fn reported(report: Result<DecodeReport, DecodeError>) -> Words {
    let mut words = sized(report.map(|report| report.frame_size()));
    let consumed = report.map_or("-".to_owned(), |report| report.parsed_size().to_string());
    words.insert(1, consumed);
    words
}

/// The status, the length and the message.
#[cfg(feature = "alloc")]
fn message(decoded: Result<Vec<u8>, DecodeError>) -> Words {
    let mut words = sized(decoded.as_ref().map(Vec::len).map_err(|error| *error));
    words.push(decoded.map_or("-".to_owned(), |message| hex(&message)));
    words
}

/// The calls of the three decoders that the cases use.
trait Streaming {
    fn push(&mut self, data: &[u8]) -> Result<Option<DecodeReport>, DecodeError>;
    fn feed(&mut self, data: u8) -> Result<Option<usize>, DecodeError>;
    fn parsed_size(&self) -> usize;
    fn dest(&self) -> &[u8];
    fn restart(&mut self);
}

macro_rules! streaming {
    ($decoder:ty, [$($generics:tt)*], $restart:expr) => {
        impl $($generics)* Streaming for $decoder {
            fn push(&mut self, data: &[u8]) -> Result<Option<DecodeReport>, DecodeError> {
                <$decoder>::push(self, data)
            }
            fn feed(&mut self, data: u8) -> Result<Option<usize>, DecodeError> {
                <$decoder>::feed(self, data)
            }
            fn parsed_size(&self) -> usize {
                <$decoder>::parsed_size(self)
            }
            fn dest(&self) -> &[u8] {
                <$decoder>::dest(self)
            }
            fn restart(&mut self) {
                let restart: fn(&mut Self) = $restart;
                restart(self);
            }
        }
    };
}

// This decoder has no `reset`. A zero makes it idle too, and changes no byte.
streaming!(CobsDecoder<'_>, [], |decoder| {
    let _ = decoder.feed(0);
});
#[cfg(feature = "alloc")]
streaming!(CobsDecoderOwned, [], |decoder| decoder.reset());
streaming!(CobsDecoderHeapless<N>, [<const N: usize>], |decoder| decoder.reset());

fn decoder(buffer: &[u8], pieces: &[&str]) -> Vec<CallResult> {
    let mut results = Vec::new();
    for by_pushes in [false, true] {
        let mut dest = buffer.to_vec();
        let mut borrowed = CobsDecoder::new(&mut dest);
        let mut within = CobsDecoderHeapless::<4>::new();
        let mut decoders: Vec<&mut dyn Streaming> = vec![&mut borrowed];
        #[cfg(feature = "alloc")]
        let mut owned = CobsDecoderOwned::new(buffer.len());
        #[cfg(feature = "alloc")]
        {
            owned.dest_mut().copy_from_slice(buffer);
            decoders.push(&mut owned);
        }
        if buffer.len() == 4 {
            within.dest_mut().copy_from_slice(buffer);
            decoders.push(&mut within);
        }
        for decoder in decoders {
            results.push(CallResult {
                words: events(decoder, pieces, by_pushes),
                by_pushes,
            });
        }
    }
    results
}

/// Returns the buffer at the end, and then three words for each result except "nothing yet".
fn events(decoder: &mut dyn Streaming, pieces: &[&str], by_pushes: bool) -> Words {
    let mut words = Vec::new();
    let mut taken = 0;
    for piece in pieces {
        if *piece == "reset" {
            decoder.restart();
            continue;
        }
        let piece = bytes(piece);
        let mut rest = piece.as_slice();
        while let Some(first) = rest.first() {
            let returned = if by_pushes {
                let report = decoder.push(rest);
                if let Ok(Some(report)) = report {
                    assert_eq!(report.parsed_size(), decoder.parsed_size());
                }
                report.map(|report| report.map(|report| report.frame_size()))
            } else {
                decoder.feed(*first)
            };
            let parsed = decoder.parsed_size();
            assert_ne!(parsed, 0, "a call with bytes takes at least one");
            taken += parsed;
            rest = &rest[parsed..];
            let (status, length) = match returned {
                Ok(None) => continue,
                Ok(Some(length)) => ("message", length),
                Err(DecodeError::InvalidFrame { decoded_bytes }) => ("broken", decoded_bytes),
                Err(DecodeError::TargetBufTooSmall) => ("too_small", decoder.dest().len()),
                Err(DecodeError::EmptyFrame) => panic!("no streaming decoder returns this"),
            };
            words.extend([
                taken.to_string(),
                status.to_owned(),
                hex(&decoder.dest()[..length]),
            ]);
        }
    }
    words.insert(0, hex(decoder.dest()));
    words
}

/// Returns two words for each piece of the stream. Each part of the stream is passed in one call.
#[cfg(feature = "alloc")]
fn decode_stream(room: usize, pieces: &[&str]) -> Words {
    let mut decoder = CobsDecoderOwned::new(room);
    let mut words = Vec::new();
    for piece in pieces {
        for outcome in jcobs::decode_stream(&mut decoder, &bytes(piece)).expect("there is memory") {
            let (status, what) = match outcome {
                FrameOutcome::Message(message) => ("message", hex(&message)),
                FrameOutcome::Broken(count) => ("broken", count.to_string()),
                FrameOutcome::TooLong => ("too_long", "-".to_owned()),
            };
            words.extend([status.to_owned(), what]);
        }
    }
    words
}

/// Returns the same words, by pushes. A piece that is too long is reported at the zero that ends it: there the bytes
/// that the push took end with a zero.
fn by_pushes(room: usize, pieces: &[&str]) -> Words {
    let mut dest = vec![0; room];
    let mut decoder = CobsDecoder::new(&mut dest);
    let mut words = Vec::new();
    for piece in pieces {
        let piece = bytes(piece);
        let mut rest = piece.as_slice();
        while !rest.is_empty() {
            let returned = decoder.push(rest);
            let (taken, behind) = rest.split_at(decoder.parsed_size());
            assert_ne!(taken, [], "a push of bytes takes at least one");
            rest = behind;
            match returned {
                Ok(Some(report)) => words.extend([
                    "message".to_owned(),
                    hex(&decoder.dest()[..report.frame_size()]),
                ]),
                Err(DecodeError::InvalidFrame { decoded_bytes }) => {
                    words.extend(["broken".to_owned(), decoded_bytes.to_string()]);
                }
                Err(_) if taken.last() == Some(&0) => {
                    words.extend(["too_long".to_owned(), "-".to_owned()]);
                }
                Ok(None) | Err(_) => {}
            }
        }
    }
    words
}

/// A source that returns these reads, and counts the reads.
struct Reads<'a> {
    left: &'a [&'a str],
    rest: Vec<u8>,
    made: usize,
}

impl FrameSource for Reads<'_> {
    fn read_some(&mut self, chunk: &mut [u8; 64]) -> Option<usize> {
        self.made += 1;
        if let ([read, left @ ..], true) = (self.left, self.rest.is_empty()) {
            self.left = left;
            if *read == "fail" {
                return None;
            }
            self.rest = bytes(read);
        }
        // No case has a read of more bytes than a chunk.
        let length = self.rest.len();
        chunk[..length].copy_from_slice(&self.rest);
        self.rest.clear();
        Some(length)
    }
}

/// Returns three words for each call: how many reads it made, and its result.
fn next_frame(room: usize, reads: &[&str]) -> Words {
    let mut dest = vec![0; room];
    let mut reader = FrameReader::new(CobsDecoder::new(&mut dest));
    let mut source = Reads {
        left: reads,
        rest: Vec::new(),
        made: 0,
    };
    let mut words = Vec::new();
    // No case has more results.
    for _ in 0..100 {
        source.made = 0;
        let next = reader.next_frame(&mut source);
        let (name, argument) = match next {
            Ok(Next::Message(length)) => ("message", hex(&reader.decoder().dest()[..length])),
            Ok(Next::Broken(count)) => ("broken", count.to_string()),
            Ok(Next::TooLong) => ("too_long", "-".to_owned()),
            Ok(Next::End { unfinished }) => (
                ["end", "unfinished"][usize::from(unfinished)],
                "-".to_owned(),
            ),
            Err(ReadFault::Io) => ("failed", "-".to_owned()),
            Err(ReadFault::TooManyReads) => panic!("no case has so many reads"),
        };
        words.extend([source.made.to_string(), name.to_owned(), argument]);
        if matches!(next, Ok(Next::End { .. })) && source.left.is_empty() {
            return words;
        }
    }
    panic!("the reader doesn't come to the end of its source");
}

fn states(call: &str, arguments: &[&str]) -> Option<Words> {
    match (call, arguments) {
        ("encoder_state", [message, last]) => Some(encoder_state(&bytes(message), byte(last))),
        ("decoder_state", [state, left, next]) => Some(decoder_state(state, left, byte(next))),
        _ => None,
    }
}

fn encoder_state(message: &[u8], last: u8) -> Words {
    let mut state = EncoderState::default();
    let mut frame = vec![0];
    for byte in message {
        carry_out(state.push(*byte), &mut frame);
    }
    let pushed = state.push(last);
    carry_out(pushed, &mut frame);
    let (at, code) = state.finalize();
    frame[at] = code;

    let none = || "-".to_owned();
    let (result, index, written, byte) = match pushed {
        PushResult::AddSingle(byte) => ("add_single", none(), none(), hex(&[byte])),
        PushResult::ModifyFromStartAndSkip((at, code)) => {
            ("modify_and_skip", at.to_string(), code.to_string(), none())
        }
        PushResult::ModifyFromStartAndPushAndSkip((at, code, byte)) => (
            "modify_push_and_skip",
            at.to_string(),
            code.to_string(),
            hex(&[byte]),
        ),
    };
    vec![
        result.to_owned(),
        index,
        written,
        byte,
        at.to_string(),
        code.to_string(),
        hex(&frame),
    ]
}

fn carry_out(pushed: PushResult, frame: &mut Vec<u8>) {
    match pushed {
        PushResult::AddSingle(byte) => frame.push(byte),
        PushResult::ModifyFromStartAndSkip((at, code)) => {
            frame[at] = code;
            frame.push(0);
        }
        PushResult::ModifyFromStartAndPushAndSkip((at, code, byte)) => {
            frame[at] = code;
            frame.extend([byte, 0]);
        }
    }
}

fn decoder_state(state: &str, left: &str, next: u8) -> Words {
    let mut state = match state {
        "grab" => DecoderState::Grab(left.parse().expect("at most 255")),
        "grab_chain" => DecoderState::GrabChain(left.parse().expect("at most 255")),
        _ => DecoderState::Idle,
    };
    let none = || "-".to_owned();
    let (result, byte) = match state.feed(next) {
        Ok(DecodeResult::NoData) => ("no_data", none()),
        Ok(DecodeResult::DataStart) => ("data_start", none()),
        Ok(DecodeResult::DataComplete) => ("data_complete", none()),
        Ok(DecodeResult::DataContinue(byte)) => ("data_continue", byte.to_string()),
        Err(_) => ("invalid", none()),
    };
    let (name, left) = match state {
        DecoderState::Idle => ("idle", none()),
        DecoderState::Grab(left) => ("grab", left.to_string()),
        DecoderState::GrabChain(left) => ("grab_chain", left.to_string()),
    };
    vec![result.to_owned(), byte, name.to_owned(), left]
}
