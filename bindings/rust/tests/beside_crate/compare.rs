//! Compares every call with the same call of the crate `cobs` 0.5.1, with overflow checks: each state of both state
//! machines with each byte, all short inputs, and random inputs. `upstream-tests.sh` builds and runs this program.
//!
//! If the repository's `docs/DIFFERENCES.md` says that the crate `cobs` panics, overflows or returns a wrong length,
//! this crate's result is compared with the result on that page instead.

use std::fmt::Debug;
use std::panic::{AssertUnwindSafe, catch_unwind};

const ROOM: usize = 24;

struct Random(u64);

impl Random {
    fn below(&mut self, end: usize) -> usize {
        self.0 ^= self.0 << 13;
        self.0 ^= self.0 >> 7;
        self.0 ^= self.0 << 17;
        (self.0 >> 20) as usize % end
    }

    /// Returns bytes in which runs of any length are as likely as zeros in a row.
    fn bytes(&mut self) -> Vec<u8> {
        let length = [self.below(9), self.below(80), 250 + self.below(12), self.below(1200)][self.below(4)];
        let zeros = [1, 2, 8, 100, 100_000][self.below(5)];
        (0..length)
            .map(|_| if self.below(zeros) == 0 { 0 } else { self.below(256) as u8 })
            .collect()
    }
}

struct Compared(u64);

impl Compared {
    fn same<T: Debug + PartialEq>(&mut self, call: &str, ours: T, theirs: T, input: &dyn Debug) {
        self.0 += 1;
        assert_eq!(ours, theirs, "{call} of {input:?}: this crate's is on the left");
    }
}

/// Returns a result as text, which is the same for both crates' types.
fn said<T: Debug>(result: T) -> String {
    format!("{result:?}")
}

/// Returns the frame of a message. The crates agree on this frame, because the length of a vector can't be wrong.
fn frame_of(seen: &mut Compared, message: &[u8]) -> Vec<u8> {
    let frame = jcobs::encode_vec(message);
    seen.same("encode_vec", &frame, &cobs::encode_vec(message), &message);
    let between = jcobs::encode_vec_including_sentinels(message);
    seen.same("encode_vec_including_sentinels", &between, &[&[0], &frame[..], &[0]].concat(), &message);
    let theirs = cobs::encode_vec_including_sentinels(message);
    assert!(theirs.starts_with(&between) && theirs[between.len()..].iter().all(|byte| *byte == 0));
    frame
}

/// Compares a call that encodes into a slice. If the frame fits, both crates write it. Otherwise this crate returns an
/// error, or panics as the crate `cobs` does, and writes nothing.
fn into_slice<E>(
    seen: &mut Compared,
    name: &str,
    frame: &[u8],
    ours: impl Fn(&mut [u8]) -> Result<usize, E>,
    theirs: impl Fn(&mut [u8]) -> usize,
) {
    for room in [0, frame.len().saturating_sub(2), frame.len() - 1, frame.len(), frame.len() + 3] {
        let (mut a, mut b) = (vec![0xAA; room], vec![0xAA; room]);
        let length = catch_unwind(AssertUnwindSafe(|| ours(&mut a).ok())).unwrap_or(None);
        seen.same(name, length, (frame.len() <= room).then_some(frame.len()), &frame);
        if let Some(length) = length {
            seen.same(name, length, theirs(&mut b), &frame);
            seen.same(name, &a[..length], &b[..length], &frame);
        }
        assert!(a[length.unwrap_or(0)..].iter().all(|byte| *byte == 0xAA), "{name}");
    }
}

fn encoders(seen: &mut Compared, random: &mut Random, message: &[u8]) {
    let frame = frame_of(seen, message);
    into_slice(seen, "try_encode", &frame, |to| jcobs::try_encode(message, to), |to| cobs::try_encode(message, to).unwrap());
    into_slice(seen, "encode", &frame, |to| Ok::<_, ()>(jcobs::encode(message, to)), |to| cobs::encode(message, to));
    let between = jcobs::encode_vec_including_sentinels(message);
    into_slice(
        seen,
        "try_encode_including_sentinels",
        &between,
        |to| jcobs::try_encode_including_sentinels(message, to),
        |to| cobs::try_encode_including_sentinels(message, to).unwrap(),
    );
    for sentinel in [0, 1, 0xFF, random.below(256) as u8] {
        let changed: Vec<_> = frame.iter().map(|byte| byte ^ sentinel).collect();
        into_slice(
            seen,
            "encode_with_sentinel",
            &changed,
            |to| Ok::<_, ()>(jcobs::encode_with_sentinel(message, to, sentinel)),
            |to| cobs::encode_with_sentinel(message, to, sentinel),
        );
        seen.same("encode_vec_with_sentinel", &changed, &cobs::encode_vec_with_sentinel(message, sentinel), &message);
        seen.same("encode_vec_with_sentinel", &changed, &jcobs::encode_vec_with_sentinel(message, sentinel), &message);
    }
    in_pieces(seen, random, message, &frame);
}

/// Compares `CobsEncoder`, with pieces that aren't empty, in a slice that is long enough or too short.
fn in_pieces(seen: &mut Compared, random: &mut Random, message: &[u8], frame: &[u8]) {
    let room = (frame.len() + 2).saturating_sub(random.below(5)).max(1);
    let (mut a, mut b) = (vec![0xAA; room], vec![0xAA; frame.len() + 9]);
    let (mut ours, mut theirs) = (jcobs::CobsEncoder::new(&mut a), cobs::CobsEncoder::new(&mut b));
    let (mut rest, mut taken) = (message, Vec::new());
    while !rest.is_empty() {
        let most = [1, 8, 70, 600][random.below(4)];
        let (piece, behind) = rest.split_at(rest.len().min(1 + random.below(most)));
        rest = behind;
        let after = [&taken[..], piece].concat();
        let pushed = ours.push(piece);
        seen.same("CobsEncoder::push", pushed.is_ok(), jcobs::encode_vec(&after).len() <= room, &message);
        if pushed.is_err() {
            break;
        }
        theirs.push(piece).expect("room");
        taken = after;
    }
    let wanted = jcobs::encode_vec(&taken);
    let length = ours.finalize();
    seen.same("CobsEncoder::finalize", length, theirs.finalize(), &taken);
    seen.same("CobsEncoder", &a[..length], &b[..length], &taken);
    seen.same("CobsEncoder", &a[..length], &wanted[..], &taken);
    assert!(a[length..].iter().all(|byte| *byte == 0xAA));
}

fn decoders(seen: &mut Compared, random: &mut Random, source: &[u8]) {
    for room in [0, 1, source.len() / 2, source.len().saturating_sub(1), source.len(), source.len() + 4] {
        let (mut a, mut b) = (vec![0xAA; room], vec![0xAA; room]);
        let (ours, theirs) = (said(jcobs::decode(source, &mut a)), said(cobs::decode(source, &mut b)));
        seen.same("decode", ours, theirs, &source);
        seen.same("decode writes", &a, &b, &source);
    }
    let (mut a, mut b) = (source.to_vec(), source.to_vec());
    let ours = jcobs::decode_in_place_report(&mut a);
    seen.same("decode_in_place_report", said(ours), said(cobs::decode_in_place_report(&mut b)), &source);
    let length = ours.map_or(0, |report| report.frame_size());
    seen.same("decode_in_place_report writes", &a[..length], &b[..length], &source);
    let ours = said(jcobs::decode_in_place(&mut source.to_vec()));
    seen.same("decode_in_place", ours, said(cobs::decode_in_place(&mut source.to_vec())), &source);
    seen.same("decode_vec", said(jcobs::decode_vec(source)), said(cobs::decode_vec(source)), &source);
    for sentinel in [0, 1, random.below(256) as u8] {
        let (mut a, mut b) = (source.to_vec(), source.to_vec());
        let ours = jcobs::decode_in_place_with_sentinel(&mut a, sentinel);
        seen.same("decode_in_place_with_sentinel", said(ours), said(cobs::decode_in_place_with_sentinel(&mut b, sentinel)), &source);
        if let Ok(length) = ours {
            seen.same("decode_in_place_with_sentinel writes", &a[..length], &b[..length], &source);
        }
        // With a buffer as long as the source, `decode` of the crate `cobs` doesn't read past the source.
        let (mut a, mut b) = (vec![0xAA; source.len()], vec![0xAA; source.len()]);
        let ours = jcobs::decode_with_sentinel(source, &mut a, sentinel);
        seen.same("decode_with_sentinel", said(ours), said(cobs::decode_with_sentinel(source, &mut b, sentinel)), &source);
        let length = ours.unwrap_or(0);
        seen.same("decode_with_sentinel writes", &a[..length], &b[..length], &source);
        let ours = said(jcobs::decode_vec_with_sentinel(source, sentinel));
        seen.same("decode_vec_with_sentinel", ours, said(cobs::decode_vec_with_sentinel(source, sentinel)), &source);
    }
}

/// One result of a stream: the number of bytes before it, and a message, or an error as text.
type Outcomes = Vec<(usize, Result<Vec<u8>, String>)>;

/// Decodes with the crate `cobs`, byte by byte. After an overflow a new decoder begins after the next zero.
fn by_crate(stream: &[u8]) -> Outcomes {
    let (mut found, mut dest, mut at) = (Vec::new(), [0; ROOM], 0);
    while at < stream.len() {
        let mut decoder = cobs::CobsDecoder::new(&mut dest);
        let mut is_over = false;
        while at < stream.len() && !is_over {
            let fed = decoder.feed(stream[at]);
            at += 1;
            match fed {
                Ok(None) => {}
                Ok(Some(length)) => found.push((at, Ok(decoder.dest()[..length].to_vec()))),
                Err(cobs::DecodeError::TargetBufTooSmall) => is_over = true,
                Err(error) => found.push((at, Err(said(error)))),
            }
        }
        if is_over {
            let zero = stream[at - 1..].iter().position(|byte| *byte == 0);
            at = zero.map_or(stream.len(), |zero| at + zero);
            found.push((at, Err("TargetBufTooSmall".to_owned())));
        }
    }
    found
}

/// Decodes with this crate, in pieces of up to `most` bytes. If a message is too long, the last error counts.
macro_rules! by_pieces {
    ($decoder:expr, $stream:expr, $most:expr, $random:expr) => {{
        let (mut decoder, stream, mut at) = ($decoder, $stream, 0);
        let mut found = Outcomes::new();
        let mut was_over = false;
        while at < stream.len() {
            let mut end = stream.len().min(at + 1 + $random.below($most));
            while at < end {
                let pushed = if $most == 0 { unreachable!() } else { decoder.push(&stream[at..end]) };
                at += decoder.parsed_size();
                let is_over = pushed == Err(jcobs::DecodeError::TargetBufTooSmall);
                if was_over && is_over {
                    found.pop();
                }
                match pushed {
                    Ok(None) => {}
                    Ok(Some(report)) => {
                        assert_eq!(report.parsed_size(), decoder.parsed_size());
                        found.push((at, Ok(decoder.dest()[..report.frame_size()].to_vec())));
                    }
                    Err(error) => found.push((at, Err(said(error)))),
                }
                was_over = is_over && stream[at - 1] != 0;
                end = end.max(at);
            }
        }
        found
    }};
}

fn streams(seen: &mut Compared, random: &mut Random, stream: &[u8]) {
    let wanted = by_crate(stream);
    for most in [1, 5, 40, 2000] {
        let mut dest = [0; ROOM];
        let ours = by_pieces!(jcobs::CobsDecoder::new(&mut dest), stream, most, random);
        seen.same("CobsDecoder::push", &ours, &wanted, &stream);
        let ours = by_pieces!(jcobs::CobsDecoderOwned::new(ROOM), stream, most, random);
        seen.same("CobsDecoderOwned::push", &ours, &wanted, &stream);
        let ours = by_pieces!(jcobs::CobsDecoderHeapless::<ROOM>::new(), stream, most, random);
        seen.same("CobsDecoderHeapless::push", &ours, &wanted, &stream);
    }
    let mut decoder = jcobs::CobsDecoderHeapless::<ROOM>::new();
    let mut ours = Outcomes::new();
    for (at, byte) in stream.iter().enumerate() {
        match decoder.feed(*byte) {
            Ok(None) => {}
            Ok(Some(length)) => ours.push((at + 1, Ok(decoder.dest()[..length].to_vec()))),
            Err(error) => {
                if error == jcobs::DecodeError::TargetBufTooSmall && at > 0 && stream[at - 1] != 0 {
                    ours.pop_if(|(place, last)| *place == at && *last == Err(said(error)));
                }
                ours.push((at + 1, Err(said(error))));
            }
        }
    }
    seen.same("feed", &ours, &wanted, &stream);
}

/// Compares each state that the decoder's state machine can be in, with each byte.
fn decoder_states(seen: &mut Compared) {
    for left in 0..=u8::MAX {
        for byte in 0..=u8::MAX {
            let pairs = [
                (jcobs::DecoderState::Idle, cobs::DecoderState::Idle),
                (jcobs::DecoderState::Grab(left), cobs::DecoderState::Grab(left)),
                (jcobs::DecoderState::GrabChain(left), cobs::DecoderState::GrabChain(left)),
            ];
            for (mut ours, mut theirs) in pairs {
                let before = said(&ours);
                seen.same("DecoderState::feed", said(ours.feed(byte)), said(theirs.feed(byte)), &(&before, byte));
                seen.same("DecoderState after it", said(&ours), said(&theirs), &(&before, byte));
            }
        }
    }
}

/// Compares each state that the encoder's state machine reaches, with each byte.
fn encoder_states(seen: &mut Compared) {
    let in_words = |result: &jcobs::PushResult| match *result {
        jcobs::PushResult::AddSingle(byte) => (0, 0, byte, 0),
        jcobs::PushResult::ModifyFromStartAndSkip((at, code)) => (1, at, code, 0),
        jcobs::PushResult::ModifyFromStartAndPushAndSkip((at, code, byte)) => (2, at, code, byte),
    };
    let in_their_words = |result: &cobs::PushResult| match *result {
        cobs::PushResult::AddSingle(byte) => (0, 0, byte, 0),
        cobs::PushResult::ModifyFromStartAndSkip((at, code)) => (1, at, code, 0),
        cobs::PushResult::ModifyFromStartAndPushAndSkip((at, code, byte)) => (2, at, code, byte),
    };
    for before in 0..300 {
        for byte in 0..=u8::MAX {
            let (mut ours, mut theirs) = (jcobs::EncoderState::default(), cobs::EncoderState::default());
            for _ in 0..before {
                ours.push(7);
                theirs.push(7);
            }
            let pushed = (in_words(&ours.push(byte)), in_their_words(&theirs.push(byte)));
            seen.same("EncoderState::push", pushed.0, pushed.1, &(before, byte));
            seen.same("EncoderState::finalize", ours.finalize(), theirs.finalize(), &(before, byte));
        }
    }
}

/// Returns all strings of this length over a few bytes.
fn each(length: usize, mut call: impl FnMut(&[u8])) {
    const BYTES: [u8; 5] = [0, 1, 2, 3, 255];
    for number in 0..BYTES.len().pow(length as u32) {
        let mut rest = number;
        let bytes: Vec<_> = (0..length)
            .map(|_| {
                let byte = BYTES[rest % BYTES.len()];
                rest /= BYTES.len();
                byte
            })
            .collect();
        call(&bytes);
    }
}

fn main() {
    std::panic::set_hook(Box::new(|panic| {
        if !panic.to_string().contains("dest`") {
            eprintln!("{panic}");
        }
    }));
    let rounds = std::env::args().nth(1).map_or(20_000, |rounds| rounds.parse().expect("a number"));
    let (mut seen, mut random) = (Compared(0), Random(0x9E37_79B9_7F4A_7C15));
    for length in (0..5000).chain([65_535, 1 << 20, usize::MAX >> 1]) {
        seen.same("max_encoding_length", jcobs::max_encoding_length(length), cobs::max_encoding_length(length), &length);
        seen.same("max_encoding_overhead", jcobs::max_encoding_overhead(length), cobs::max_encoding_overhead(length), &length);
    }
    decoder_states(&mut seen);
    encoder_states(&mut seen);
    for length in 0..=5 {
        each(length, |bytes| {
            encoders(&mut seen, &mut random, bytes);
            decoders(&mut seen, &mut random, bytes);
            streams(&mut seen, &mut random, bytes);
        });
    }
    for _ in 0..rounds {
        let message = random.bytes();
        encoders(&mut seen, &mut random, &message);
        let mut source = if random.below(2) == 0 { jcobs::encode_vec(&message) } else { message };
        if random.below(3) == 0 && !source.is_empty() {
            let at = random.below(source.len());
            source[at] = random.below(256) as u8;
        }
        decoders(&mut seen, &mut random, &source);
        let mut stream = Vec::new();
        for _ in 0..random.below(6) {
            let piece = random.bytes();
            let piece = &piece[..piece.len().min(random.below(60))];
            stream.extend(if random.below(3) == 0 { piece.to_vec() } else { jcobs::encode_vec(piece) });
            stream.push(0);
        }
        streams(&mut seen, &mut random, &stream);
    }
    println!("= {} results compared, none differs", seen.0);
}
