import { FrameDecoderStream, encode, load } from "jcobs";

await load();

/**
 * Calls `show` with each message that an open serial port receives. Returns an object with `send`, which sends a message, `close`,
 * which closes the port, and `ended`, a promise that is settled when the input of the port ends or fails, when `show` throws an
 * error, or when `close` is called.
 * @param {{ readable: ReadableStream<Uint8Array>, writable: WritableStream<Uint8Array>, close(): Promise<void> }} port
 * @param {(message: Uint8Array) => void} show
 */
export function talk(port, show) {
  const frames = new FrameDecoderStream({ maxLength: 4096, skipFirst: true }); // the first bytes may be the rest of a frame
  const piped = port.readable.pipeTo(frames.writable).catch(() => {}); // a fault of the line also ends `read`
  const reader = frames.readable.getReader();
  const writer = port.writable.getWriter();

  async function read() {
    for (;;) {
      const { value, done } = await reader.read();
      if (done) return;
      if (value.kind === "message") show(value.message);
      else if (value.kind === "broken") console.warn(`a frame breaks off inside a block; bytes decoded before that: ${value.decodedBytes}`);
      else console.warn("a message is too long");
    }
  }

  return {
    /** Is fulfilled at the end of the input or by `close`, and rejected if the input fails or `show` throws an error. */
    ended: read(),
    send: (/** @type {Uint8Array} */ message) => writer.write(encode(message, { terminated: true })),
    async close() {
      await reader.cancel().catch(() => {}); // is rejected after a fault of the line
      await piped; // until then the pipe locks the port's stream, and the port can't be closed
      await writer.ready.catch(() => {});
      writer.releaseLock();
      await port.close();
    },
  };
}
