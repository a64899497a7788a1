//! Sends and receives messages over a line with tokio. `Framed` turns anything that reads and writes bytes into a
//! stream and a sink of messages.

use std::io;

use futures_util::{SinkExt, StreamExt};
use jcobs::{DecodeError, MessageCodec};
use tokio_util::codec::Framed;

async fn run() -> io::Result<()> {
    let (one, mut other) = tokio::io::duplex(7);
    let sends = async move {
        let mut frames = Framed::new(one, MessageCodec::new(16));
        for message in [&b"hello"[..], b"", b"a\0b", &[7; 300]] {
            frames.send(message).await?;
        }
        tokio::io::AsyncWriteExt::write_all(frames.get_mut(), b"\x05cut").await
    };
    let receives = async {
        let mut frames = Framed::new(&mut other, MessageCodec::new(16));
        let mut received = Vec::new();
        loop {
            match frames.next().await {
                Some(Ok(message)) => received.push(message.map(|message| message.to_vec())),
                end => return (received, end.map(|end| end.map_err(|error| error.kind()))),
            }
        }
    };
    let (sent, (received, end)) = futures_util::future::join(sends, receives).await;
    sent?;
    let expected = [&b"hello"[..], b"", b"a\0b"].map(|message| Ok(message.to_vec()));
    assert_eq!(received[..3], expected);
    assert_eq!(received[3..], [Err(DecodeError::TargetBufTooSmall)]);
    assert_eq!(end, Some(Err(io::ErrorKind::UnexpectedEof)));
    println!("{} frames", received.len());
    Ok(())
}

fn main() -> io::Result<()> {
    tokio::runtime::Builder::new_current_thread()
        .build()?
        .block_on(run())
}
