//! Compares every step of the streaming coders, and every call for all strings of a few tokens, with the format.
//!
//! The results are compared with those of `read`, which reads bytes as blocks, without a state machine. A frame that an
//! encoder writes is right if it has no zero, reads as the message, and doesn't end in the block 1 after a full block;
//! a message has only one frame with these properties. The test `check/steps.c` of the repository does the same for the
//! library for C.

use jcobs::{CobsDecoder, CobsEncoder, DecodeError, DestBufTooSmallError, FrameKind};

/// The bytes of a buffer before a call; no string has this byte.
const FILL: u8 = 0xEE;
/// The number of tokens in a string. Without optimization more tokens would take too long.
const DEPTH: u32 = if cfg!(debug_assertions) { 3 } else { 6 };
const SENTINELS: [u8; 4] = [1, 2, 0x5A, 255];

/// The message that bytes without a zero read as.
struct Reading {
    /// The output of the bytes.
    output: Vec<u8>,
    /// The number of bytes of the output of the whole blocks, including the zero after the last whole block, unless it
    /// is full.
    kept: usize,
    /// Whether there are no bytes, or bytes of the last block are missing.
    broken: bool,
    /// Whether the last block is 1, after a full block.
    longer: bool,
}

/// Reads bytes as blocks, end to end. A block is a code and the bytes after it; the code counts these bytes and itself.
/// The output is the bytes of the blocks without their codes, with a zero between two blocks unless the first has the
/// code 255, and so is full.
fn read(mut bytes: &[u8]) -> Reading {
    let mut reading = Reading {
        output: Vec::new(),
        kept: 0,
        broken: true,
        longer: false,
    };
    let mut before = None;
    while let Some(&code) = bytes.first() {
        if before.is_some_and(|before| before != 255) {
            reading.output.push(0);
        }
        reading.kept = reading.output.len();
        let here = bytes.len().min(code.into());
        reading.output.extend(&bytes[1..here]);
        reading.broken = here < code.into();
        if !reading.broken {
            reading.kept = reading.output.len();
        }
        reading.longer = code == 1 && before == Some(255);
        before = Some(code);
        bytes = &bytes[here..];
    }
    reading
}

fn xored(bytes: &[u8], sentinel: u8) -> Vec<u8> {
    bytes.iter().map(|byte| byte ^ sentinel).collect()
}

/// Returns the bytes before the first zero, or all bytes.
fn head(bytes: &[u8]) -> &[u8] {
    bytes.split(|&byte| byte == 0).next().unwrap_or_default()
}

/// Returns a buffer that begins with as many of these bytes as fit, and is otherwise as before the call.
fn filled_but(front: &[u8], room: usize) -> Vec<u8> {
    let mut buffer = vec![FILL; room];
    let fits = front.len().min(room);
    buffer[..fits].copy_from_slice(&front[..fits]);
    buffer
}

/// Returns the frame that `try_encode` writes for a message, and checks that it is the encoded frame.
fn frame_of(message: &[u8]) -> Vec<u8> {
    let len = message.len();
    let longest = if len == 0 { 1 } else { len + len.div_ceil(254) };
    assert_eq!(jcobs::max_encoding_length(len), longest);
    let mut frame = vec![0; longest];
    let length = jcobs::try_encode(message, &mut frame).expect("the longest frame fits");
    frame.truncate(length);
    let reading = read(&frame);
    assert!(!frame.contains(&0), "{message:?}");
    assert!(!reading.broken && !reading.longer, "{message:?}");
    assert_eq!(reading.output, message);
    frame
}

/// Pushes a stream in two pieces. After each frame the bytes that are left are pushed again.
fn check_stream(stream: &[u8], room: usize, cut: usize) {
    let mut dest = vec![FILL; room];
    let mut decoder = CobsDecoder::new(&mut dest);
    let (mut at, mut start) = (0, 0);
    for end in [cut, stream.len()] {
        loop {
            while start < end && start >= at && stream[start] == 0 {
                start += 1;
            }
            let piece = head(&stream[start..end.max(start)]);
            let ends = start + piece.len() < end && !piece.is_empty();
            let reading = read(piece);
            let too_long = reading.output.len() > room;
            let result = decoder.push(&stream[at..end]);
            let taken = decoder.parsed_size();
            let place = || format!("{stream:?} cut at {cut}, from {at}, room for {room}");
            if ends {
                assert_eq!(at + taken, start + piece.len() + 1, "{}", place());
                match result {
                    Err(DecodeError::TargetBufTooSmall) => assert!(too_long, "{}", place()),
                    Err(DecodeError::InvalidFrame { decoded_bytes }) => {
                        assert!(reading.broken && !too_long, "{}", place());
                        assert_eq!(decoded_bytes, reading.output.len(), "{}", place());
                    }
                    Ok(Some(report)) => {
                        assert!(!reading.broken && !too_long, "{}", place());
                        assert_eq!(report.parsed_size(), taken, "{}", place());
                        assert_eq!(report.frame_size(), reading.output.len(), "{}", place());
                    }
                    _ => panic!("{}", place()),
                }
            } else {
                assert_eq!(at + taken, end, "{}", place());
                let expected = if too_long && at < end {
                    Err(DecodeError::TargetBufTooSmall)
                } else {
                    Ok(None)
                };
                assert_eq!(result, expected, "{}", place());
            }
            assert_eq!(
                decoder.dest(),
                filled_but(&reading.output, room),
                "{}",
                place()
            );
            at += taken;
            if ends {
                decoder.dest_mut().fill(FILL);
                start = at;
            }
            if at == end {
                break;
            }
        }
    }
}

/// Decodes a source by each call that decodes one frame.
fn check_source(source: &[u8], room: usize, sentinel: u8) {
    let place = || format!("{source:?}, room for {room}, sentinel {sentinel}");
    let zeros = source.iter().take_while(|&&byte| byte == 0).count();
    let piece = head(&source[zeros..]);
    let reading = read(piece);
    let mut dest = vec![FILL; room];
    let result = jcobs::decode(source, &mut dest);
    let expected = if source.is_empty() {
        Err(DecodeError::EmptyFrame)
    } else if piece.is_empty() {
        Err(DecodeError::InvalidFrame { decoded_bytes: 0 })
    } else if reading.output.len() > room {
        Err(DecodeError::TargetBufTooSmall)
    } else if reading.broken {
        Err(DecodeError::InvalidFrame {
            decoded_bytes: reading.output.len(),
        })
    } else {
        Ok((
            (zeros + piece.len() + 1).min(source.len()),
            reading.output.len(),
        ))
    };
    let sizes = result.map(|report| (report.parsed_size(), report.frame_size()));
    assert_eq!(sizes, expected, "{}", place());
    assert_eq!(dest, filled_but(&reading.output, room), "{}", place());

    let front = head(source);
    let reading = read(front);
    let kept = &reading.output[..reading.kept];
    let expected = if source.is_empty() {
        Err(DecodeError::EmptyFrame)
    } else if !front.is_empty() && reading.broken {
        Err(DecodeError::InvalidFrame {
            decoded_bytes: reading.kept,
        })
    } else {
        Ok(reading.kept)
    };
    let mut dest = vec![FILL; room];
    let result = jcobs::decode_with_sentinel(&xored(source, sentinel), &mut dest, sentinel);
    if kept.len() > room {
        assert_eq!(result, Err(DecodeError::TargetBufTooSmall), "{}", place());
    } else {
        assert_eq!(result, expected, "{}", place());
    }
    assert_eq!(dest, filled_but(kept, room), "{}", place());

    // In place the buffer is always long enough.
    let after = [kept, &source[kept.len()..]].concat();
    let mut buffer = source.to_vec();
    assert_eq!(jcobs::decode_in_place(&mut buffer), expected, "{}", place());
    assert_eq!(buffer, after, "{}", place());
    let mut buffer = source.to_vec();
    let sizes = jcobs::decode_in_place_report(&mut buffer)
        .map(|report| (report.parsed_size(), report.frame_size()));
    assert_eq!(
        sizes,
        expected.map(|size| (front.len(), size)),
        "{}",
        place()
    );
    assert_eq!(buffer, after, "{}", place());
    let mut buffer = xored(source, sentinel);
    let result = jcobs::decode_in_place_with_sentinel(&mut buffer, sentinel);
    assert_eq!((result, buffer), (expected, after), "{}", place());

    let kind = if front.len() < source.len() || reading.broken {
        FrameKind::NotAFrame
    } else if reading.longer {
        FrameKind::Longer
    } else {
        FrameKind::Canonical
    };
    assert_eq!(jcobs::frame_kind(source), kind, "{}", place());
}

/// The result of a call, and the buffer after it.
type Written = (Result<usize, DestBufTooSmallError>, Vec<u8>);

fn written(
    room: usize,
    call: impl FnOnce(&mut [u8]) -> Result<usize, DestBufTooSmallError>,
) -> Written {
    let mut dest = vec![FILL; room];
    (call(&mut dest), dest)
}

/// Writes these bytes, if they fit.
fn expected(bytes: &[u8], room: usize) -> Written {
    if bytes.len() <= room {
        (Ok(bytes.len()), filled_but(bytes, room))
    } else {
        (Err(DestBufTooSmallError), vec![FILL; room])
    }
}

/// Encodes a message in one call.
fn check_message(message: &[u8], sentinel: u8) {
    let frame = frame_of(message);
    let between = [&[0], &frame[..], &[0]].concat();
    let length = frame.len();
    let rooms = [length + 3, length + 2, length + 1, length, length - 1];
    for room in rooms.into_iter().chain([0, 1, 2, 254, 255, 256]) {
        let place = || format!("{message:?}, room for {room}, sentinel {sentinel}");
        let result = written(room, |dest| jcobs::try_encode(message, dest));
        assert_eq!(result, expected(&frame, room), "{}", place());
        let result = written(room, |dest| {
            jcobs::try_encode_with_sentinel(message, dest, sentinel)
        });
        assert_eq!(
            result,
            expected(&xored(&frame, sentinel), room),
            "{}",
            place()
        );
        let result = written(room, |dest| {
            jcobs::try_encode_including_sentinels(message, dest)
        });
        assert_eq!(result, expected(&between, room), "{}", place());
    }
    let overhead = jcobs::max_encoding_overhead(message.len());
    let mut buffer = [&vec![FILL; overhead][..], message, &[FILL; 2]].concat();
    let rest = buffer[length..].to_vec();
    assert_eq!(
        jcobs::encode_in_place(&mut buffer, overhead, message.len()),
        length
    );
    assert_eq!(buffer, [frame, rest].concat(), "{message:?} in place");
}

/// Encodes a message in two pushes, to a buffer that is as long as needed, longer, or shorter.
fn check_pushes(message: &[u8], cut: usize) {
    let (first, second) = message.split_at(cut);
    let (first_frame, frame) = (frame_of(first), frame_of(message));
    let length = frame.len();
    for room in [
        length + 2,
        length,
        length - 1,
        first_frame.len(),
        0,
        254,
        255,
        256,
    ] {
        let place = || format!("{message:?} cut at {cut}, room for {room}");
        let mut dest = vec![FILL; room];
        let mut encoder = CobsEncoder::new(&mut dest);
        let fits = encoder.push(first).is_ok();
        assert_eq!(fits, first_frame.len() <= room, "{}", place());
        let mut taken: &[u8] = &[1];
        if fits {
            let all = encoder.push(second).is_ok();
            assert_eq!(all, length <= room, "{}", place());
            taken = if all { &frame } else { &first_frame };
        }
        // After a push that didn't fit, the frame is that of the bytes before.
        let size = encoder.finalize();
        let taken = if room == 0 { &[] } else { taken };
        assert_eq!(size, taken.len(), "{}", place());
        assert_eq!(dest, filled_but(taken, room), "{}", place());
    }
}

/// Returns bytes for a block; no byte is zero or `FILL`.
fn run(length: usize) -> Vec<u8> {
    (0..length).map(|i| (i % 200 + 1) as u8).collect()
}

/// Returns a block with these bytes.
fn block(bytes: &[u8]) -> Vec<u8> {
    let mut block = vec![(bytes.len() + 1) as u8];
    block.extend(bytes);
    block
}

/// Tests each state in which a piece can leave a decoder, as far as the next byte's result depends on the state, with
/// each next byte.
#[test]
fn decoder_steps() {
    let mut fronts = vec![Vec::new()];
    for missing in 0..=253 {
        // The last block isn't full, this number of its bytes is missing, and some or none of its bytes are in the
        // buffer.
        for bytes in 0..=(253 - missing).min(2) {
            let code = (missing + bytes + 1) as u8;
            let begun = [&[code], &run(bytes)[..]].concat();
            fronts.push([&[1], &begun[..]].concat());
            fronts.push(begun);
        }
    }
    for missing in 0..=254 {
        fronts.push([&[255], &run(254 - missing)[..]].concat());
    }
    for front in fronts {
        let room = read(&front).output.len();
        for byte in 0..=255 {
            let stream = [&front[..], &[byte, 0, 2, 9, 0]].concat();
            for room in room.saturating_sub(1)..=room + 1 {
                check_stream(&stream[..=front.len()], room, front.len());
            }
            if byte < 3 {
                check_stream(&stream, room + 1, front.len() + 1);
            }
        }
    }
}

/// Tests each length of the open block, after blocks of several kinds, with a next byte. At the lengths at which the
/// step differs, each next byte is tested.
#[test]
fn encoder_steps() {
    let full = run(254);
    let zero_after_full = [&full[..], &[0]].concat();
    let almost_full = [&run(253)[..], &[0]].concat();
    let two_full = [&full[..], &full[..]].concat();
    let before: [&[u8]; 6] = [&[], &[0], &almost_full, &full, &zero_after_full, &two_full];
    for before in before {
        for taken in 0..254 {
            let mut message = [before, &run(taken)[..]].concat();
            let cut = message.len();
            message.push(0);
            for byte in 0..=255 {
                if !(3..=253).contains(&byte) || [0, 1, 2, 127, 252, 253].contains(&taken) {
                    message[cut] = byte;
                    check_pushes(&message, cut);
                }
            }
        }
    }
}

/// Appends a token to a string: a byte, or bytes for a block, in a frame after its code.
fn put_token(string: &mut Vec<u8>, token: u32, of_frame: bool) {
    match (token, of_frame) {
        (0..=4, _) => string.push([0, 1, 2, 3, 255][token as usize]),
        (_, true) => string.extend(block(&run(if token == 5 { 254 } else { 253 }))),
        (_, false) => string.extend(run(if token == 5 { 254 } else { 253 })),
    }
}

/// Returns the string of this number, whose digits are the tokens, and the places to cut it: everywhere if the string
/// is short, otherwise near the ends of the tokens.
fn string(number: u32, depth: u32, of_frame: bool) -> (Vec<u8>, Vec<usize>) {
    let (mut string, mut cuts) = (Vec::new(), vec![0]);
    for place in 0..depth {
        put_token(&mut string, number / 7_u32.pow(place) % 7, of_frame);
        cuts.extend(string.len() - 1..=string.len() + 1);
    }
    if depth <= 2 {
        cuts.extend(0..=string.len());
    }
    cuts.retain(|&cut| cut <= string.len());
    cuts.sort_unstable();
    cuts.dedup();
    (string, cuts)
}

/// Tests every call with this source or stream, with several lengths of the buffer.
fn check_frames(source: &[u8], cuts: &[usize], sentinel: u8) {
    let lengths = source
        .split(|&byte| byte == 0)
        .map(|piece| read(piece).output.len());
    let longest = lengths.max().unwrap_or(0);
    let mut rooms = vec![
        longest + 3,
        longest,
        longest.saturating_sub(1),
        longest / 2,
        0,
    ];
    rooms.dedup();
    for room in rooms {
        check_source(source, room, sentinel);
        for &cut in cuts {
            check_stream(source, room, cut);
        }
    }
}

/// Tests every call with this message.
fn check_messages(message: &[u8], cuts: &[usize], sentinel: u8) {
    check_message(message, sentinel);
    for &cut in cuts {
        check_pushes(message, cut);
    }
}

#[test]
fn strings() {
    for depth in 0..=DEPTH {
        for number in 0..7_u32.pow(depth) {
            let sentinel = SENTINELS[number as usize % SENTINELS.len()];
            let (source, cuts) = string(number, depth, true);
            check_frames(&source, &cuts, sentinel);
            let (message, cuts) = string(number, depth, false);
            check_messages(&message, &cuts, sentinel);
        }
    }
}

/// Tests two blocks of each pair of lengths (whole, without the last byte, and with a zero after them) and their
/// message. The crate has separate code for some lengths.
#[test]
fn pairs_of_blocks() {
    let step = if cfg!(debug_assertions) { 23 } else { 1 };
    for first in 0..255 {
        for second in (0..255).step_by(step) {
            let sentinel = SENTINELS[(first + second) % SENTINELS.len()];
            let cut = [first + 1];
            let mut source = [block(&run(first)), block(&run(second))].concat();
            let message = read(&source).output;
            check_frames(&source, &cut, sentinel);
            check_frames(&source[..source.len() - 1], &cut, sentinel);
            source.push(0);
            check_frames(&source, &cut, sentinel);
            check_messages(&message, &[first], sentinel);
        }
    }
}
