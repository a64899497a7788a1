//! Encodes messages to frames, with each length of the buffer and each cut of the message.

use jcobs::{CobsEncoder, DestBufTooSmallError, UnbufferedEncoder};

use crate::grammar::Encoder;
use crate::{ALL, FILL, messages, some_messages};

/// The bytes of a message after its run: each of these is tested.
const TAILS: [&[u8]; 3] = [&[], &[0], &[0, 7, 7, 7, 7, 7]];

/// A message, its frame, and the length of the frame of each front of the message.
struct Case<'a> {
    message: &'a [u8],
    frame: Vec<u8>,
    lens: Vec<usize>,
}

impl<'a> Case<'a> {
    fn of(message: &'a [u8]) -> Self {
        let mut encoder = Encoder::default();
        let mut lens = vec![encoder.len()];
        for byte in message {
            encoder.take(*byte);
            lens.push(encoder.len());
        }
        let frame = encoder.frame();
        Self {
            message,
            frame,
            lens,
        }
    }

    /// Calls the functions for a whole message.
    fn check_whole(&self, room: usize) {
        let place = || format!("{:?}, room for {room}", self.message);
        let mut dest = vec![FILL; room];
        let returned = jcobs::try_encode(self.message, &mut dest);
        let expected = written(&self.frame, room);
        assert_eq!((returned, dest), expected, "{}", place());

        let sentinel = 0x55;
        let mut dest = vec![FILL; room];
        let returned = jcobs::try_encode_with_sentinel(self.message, &mut dest, sentinel);
        let xored: Vec<_> = self.frame.iter().map(|byte| byte ^ sentinel).collect();
        assert_eq!((returned, dest), written(&xored, room), "{}", place());

        let mut dest = vec![FILL; room];
        let returned = jcobs::try_encode_including_sentinels(self.message, &mut dest);
        let between = [&[0], &self.frame[..], &[0]].concat();
        assert_eq!((returned, dest), written(&between, room), "{}", place());
    }

    /// Encodes in the message's own buffer, which has this many bytes after the message.
    fn check_in_place(&self, more: usize) {
        let overhead = jcobs::max_encoding_overhead(self.message.len());
        let mut buffer = vec![FILL; overhead + self.message.len() + more];
        buffer[overhead..][..self.message.len()].copy_from_slice(self.message);
        let mut expected = buffer.clone();
        expected[..self.frame.len()].copy_from_slice(&self.frame);
        let len = jcobs::encode_in_place(&mut buffer, overhead, self.message.len());
        assert_eq!(len, self.frame.len(), "{:?}", self.message);
        assert_eq!(buffer, expected, "{:?}", self.message);
    }

    /// Encodes with the writer of messages, and as a stream.
    #[cfg(feature = "std")]
    fn check_writer(&self) {
        let mut writer = jcobs::MessageWriter::new(Vec::new());
        let ended = [&self.frame[..], &[0]].concat();
        for _ in 0..2 {
            writer
                .write_message(self.message)
                .expect("a vector takes it");
        }
        let written = writer.into_inner();
        assert_eq!(written, ended.repeat(2), "{:?}", self.message);
        let stream = jcobs::encode_frames([self.message; 2]).expect("memory");
        assert_eq!(stream, written, "{:?}", self.message);
    }

    /// Pushes the message byte by byte, and in pieces of a few bytes, as far as it fits.
    fn check_steps(&self, room: usize) {
        let place = || format!("{:?}, room for {room}", self.message);
        let fits = self.lens.partition_point(|&len| len <= room).max(1) - 1;
        let (mut dest, mut encoder) = (vec![FILL; room], UnbufferedEncoder::new());
        for byte in &self.message[..fits] {
            assert_eq!(encoder.feed(&mut dest, *byte), Ok(()), "{}", place());
        }
        if let Some(byte) = self.message.get(fits) {
            let before = encoder;
            let taken = encoder.feed(&mut dest, *byte);
            assert_eq!(taken, Err(DestBufTooSmallError), "{}", place());
            assert_eq!(encoder, before, "{}", place());
        }
        if let Ok(len) = encoder.finalize(&mut dest) {
            self.check_frame(len, &dest, fits, [true, fits == self.message.len()]);
        }
        for count in [1, 3, 8] {
            let (mut dest, mut encoder) = (vec![FILL; room], UnbufferedEncoder::new());
            for piece in self.message[..fits].chunks(count) {
                let pushed = encoder.push(&mut dest, piece);
                assert_eq!(pushed, Ok(()), "{}", place());
            }
            if let Ok(len) = encoder.finalize(&mut dest) {
                self.check_frame(len, &dest, fits, [true, fits == self.message.len()]);
            }
        }
    }

    /// Pushes the message in two pieces.
    fn check_pushes(&self, room: usize, cut: usize) {
        let place = || format!("{:?} cut at {cut}, room for {room}", self.message);
        let (first, second) = self.message.split_at(cut);
        let fits = [self.lens[cut] <= room, self.frame.len() <= room];
        let pushed = |fits| {
            if fits {
                Ok(())
            } else {
                Err(DestBufTooSmallError)
            }
        };
        let mut dest = vec![FILL; room];
        let mut encoder = CobsEncoder::new(&mut dest);
        assert_eq!(encoder.push(first), pushed(fits[0]), "{}", place());
        if fits[0] {
            assert_eq!(encoder.push(second), pushed(fits[1]), "{}", place());
        }
        let len = encoder.finalize();
        self.check_frame(len, &dest, cut, fits);

        let mut dest = vec![FILL; room];
        let mut encoder = UnbufferedEncoder::new();
        let first_pushed = encoder.push(&mut dest, first);
        assert_eq!(first_pushed, pushed(fits[0]), "{}", place());
        if fits[0] {
            let second_pushed = encoder.push(&mut dest, second);
            assert_eq!(second_pushed, pushed(fits[1]), "{}", place());
        }
        if let Ok(len) = encoder.finalize(&mut dest) {
            self.check_frame(len, &dest, cut, fits);
        }

        let mut dest = vec![FILL; room];
        let mut encoder = UnbufferedEncoder::new();
        assert_eq!(
            encoder.push(&mut dest, first),
            pushed(fits[0]),
            "{}",
            place()
        );
        if fits[0] {
            assert_eq!(
                encoder.push(&mut dest, second),
                pushed(fits[1]),
                "{}",
                place()
            );
        }
        if room > 0 {
            let len = encoder.finalize(&mut dest).expect("what was taken fits");
            self.check_frame(len, &dest, cut, fits);
        } else {
            assert_eq!(encoder.finalize(&mut dest), Err(DestBufTooSmallError));
        }
    }

    /// Checks that the buffer has the frame of the bytes that were taken, and that nothing else has changed.
    fn check_frame(&self, len: usize, dest: &[u8], cut: usize, fits: [bool; 2]) {
        let of_front;
        let frame = match fits {
            _ if dest.is_empty() => &[],
            [true, true] => &self.frame[..],
            [true, false] => {
                of_front = crate::grammar::encoded(&self.message[..cut]);
                &of_front[..]
            }
            _ => &[1],
        };
        let place = || format!("{:?} cut at {cut}, {dest:?}", self.message);
        assert_eq!(&dest[..len], frame, "{}", place());
        assert!(dest[len..].iter().all(|&byte| byte == FILL), "{}", place());
    }
}

/// Checks a call that writes these bytes, if they fit.
fn written(bytes: &[u8], room: usize) -> (Result<usize, DestBufTooSmallError>, Vec<u8>) {
    let mut dest = vec![FILL; room];
    let Some(front) = dest.get_mut(..bytes.len()) else {
        return (Err(DestBufTooSmallError), dest);
    };
    front.copy_from_slice(bytes);
    (Ok(bytes.len()), dest)
}

#[test]
fn the_least_room() {
    messages(&TAILS, |message| {
        let case = Case::of(message);
        let len = case.frame.len();
        case.check_whole(len - 1);
        case.check_whole(len);
        case.check_steps(len);
        case.check_steps(len - 1);
        case.check_in_place(len % 3);
        #[cfg(feature = "std")]
        case.check_writer();
        case.check_pushes(len, message.len() / 2);
        case.check_pushes(len - 1, message.len());
    });
}

#[test]
fn each_room() {
    let check = |message: &[u8]| {
        let case = Case::of(message);
        for room in 0..=case.frame.len() + 3 {
            case.check_whole(room);
            case.check_pushes(room, message.len() / 3);
        }
    };
    if ALL {
        messages(&TAILS[2..], check);
    } else {
        some_messages(&TAILS[2..], check);
    }
}

#[test]
fn each_room_by_steps() {
    some_messages(&TAILS[2..], |message| {
        let case = Case::of(message);
        for room in 0..=case.frame.len() + 1 {
            case.check_steps(room);
        }
    });
}

#[test]
fn each_cut() {
    let check = |message: &[u8]| {
        let case = Case::of(message);
        for cut in 0..=message.len() {
            case.check_pushes(case.frame.len(), cut);
            case.check_pushes(case.frame.len() - 1, cut);
        }
    };
    if ALL {
        messages(&TAILS[..1], check);
    } else {
        some_messages(&TAILS[..1], check);
    }
}
