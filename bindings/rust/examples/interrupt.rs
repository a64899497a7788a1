//! Receives bytes in an interrupt handler. The handler only queues the bytes, and the main loop decodes them.
//!
//! `main` simulates the hardware. Only `main` needs `std`.

use std::sync::atomic::{AtomicU8, AtomicUsize, Ordering};

use jcobs::CobsDecoderHeapless;

/// A queue of bytes. One interrupt handler puts bytes into the queue, and one main loop takes them out.
struct Queue<const N: usize> {
    bytes: [AtomicU8; N],
    /// The number of bytes that were put into the queue. It only grows, and wraps around to 0 after its greatest value.
    put: AtomicUsize,
    /// The number of bytes that were taken out of the queue. It grows and wraps around like `put`.
    taken: AtomicUsize,
}

impl<const N: usize> Queue<N> {
    const fn new() -> Self {
        // With another size, the index `put % N` would jump when `put` wraps around to 0.
        assert!(N.is_power_of_two());
        Self {
            bytes: [const { AtomicU8::new(0) }; N],
            put: AtomicUsize::new(0),
            taken: AtomicUsize::new(0),
        }
    }

    /// Adds a byte to the queue. If the queue is full, the byte is dropped. Then the frame that contains it is damaged,
    /// and may be decoded to a wrong message. Put a checksum into your messages to notice this.
    fn put(&self, byte: u8) {
        let put = self.put.load(Ordering::Relaxed);
        if put.wrapping_sub(self.taken.load(Ordering::Acquire)) < N {
            self.bytes[put % N].store(byte, Ordering::Relaxed);
            self.put.store(put.wrapping_add(1), Ordering::Release);
        }
    }

    fn take(&self) -> Option<u8> {
        let taken = self.taken.load(Ordering::Relaxed);
        if taken == self.put.load(Ordering::Acquire) {
            return None;
        }
        let byte = self.bytes[taken % N].load(Ordering::Relaxed);
        self.taken.store(taken.wrapping_add(1), Ordering::Release);
        Some(byte)
    }
}

static RECEIVED: Queue<64> = Queue::new();

/// The interrupt handler of the serial receiver. The argument is the byte in the receiver's data register.
fn on_byte(byte: u8) {
    RECEIVED.put(byte);
}

/// Runs one round of the main loop: decodes the bytes that have arrived, and calls `on_message` with each message.
fn poll<const N: usize>(decoder: &mut CobsDecoderHeapless<N>, mut on_message: impl FnMut(&[u8])) {
    while let Some(byte) = RECEIVED.take() {
        // `feed` returns an error if a frame breaks off inside a block, or is too long. This frame is dropped, and the
        // next frame isn't affected.
        if let Ok(Some(len)) = decoder.feed(byte) {
            on_message(&decoder.dest()[..len]);
        }
    }
}

fn main() {
    let mut decoder = CobsDecoderHeapless::<32>::new();
    let mut messages = Vec::new();
    for part in [&b"\x06hel"[..], b"lo\0\x09bro\0\x03h", b"i\0"] {
        part.iter().copied().for_each(on_byte);
        poll(&mut decoder, |message| messages.push(message.to_vec()));
    }
    assert_eq!(messages, [&b"hello"[..], b"hi"]);
    println!("{} messages", messages.len());
}

#[test]
fn messages_come_through_the_queue() {
    main();
}
