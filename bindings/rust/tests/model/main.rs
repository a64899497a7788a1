//! Compares the coders with a model of the format that processes single bytes: each run of 0 to 600 bytes after each
//! offset from 0 to 64, with each length of the buffer up to one byte more than is needed, and cut at each place. Also
//! tests the coders whose buffer is passed to each call, from any state, with any buffer.
//!
//! Without optimization not all lengths and cuts are tried, only those near the places where the result changes.

mod any_state;
mod decoding;
mod encoding;
mod grammar;

/// The bytes of a buffer before a call; no message or frame here has this byte.
const FILL: u8 = 0xEE;

/// Whether every room and every cut is tried.
const ALL: bool = !cfg!(debug_assertions);

/// A message: `offset` bytes, a run of `run` nonzero bytes, and `tail`.
fn message(offset: usize, run: usize, tail: &[u8]) -> Vec<u8> {
    // The offset ends with a zero, so that the run begins after it. At every other offset all its bytes are zeros.
    let mut message = vec![if offset % 2 == 0 { 7 } else { 0 }; offset];
    if let Some(last) = message.last_mut() {
        *last = 0;
    }
    // None of these bytes is 255, or the code of a short block.
    message.extend((0..run).map(|at| 100 + (at % 100) as u8));
    message.extend(tail);
    message
}

/// Every offset with every run, and each of these tails. Without optimization only every fifth of the long runs that
/// aren't at the edge of a block is tried, and for each offset other runs.
fn messages(tails: &[&[u8]], mut check: impl FnMut(&[u8])) {
    for offset in 0..=64 {
        for run in 0..=600 {
            if ALL || run < 40 || is_edge(run) || (run + offset) % 5 == 0 {
                for tail in tails {
                    check(&message(offset, run, tail));
                }
            }
        }
    }
}

/// Whether a block ends with the last byte of the run, or one or two bytes before or after it.
fn is_edge(run: usize) -> bool {
    run % 254 < 3 || run % 254 > 251
}

/// Some of these messages: each offset at the edge of a step of 8, 16 or 64 bytes, with each run at the edge of a block
/// or a step.
fn some_messages(tails: &[&[u8]], mut check: impl FnMut(&[u8])) {
    for offset in [0, 1, 2, 15, 16, 17, 64] {
        for run in (0..=600).filter(|&run| is_edge(run) || run % 32 == 17) {
            for tail in tails {
                check(&message(offset, run, tail));
            }
        }
    }
}
