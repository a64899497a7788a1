// A port without a device. The bytes that are written to the port can be read from it, in pieces of a few bytes, as from a line.

const PIECE = 5;
const EVERY = 3;

/** Has the members of a Web Serial port: `open`, `close`, `readable`, `writable`. While `isNoisy()` is true, it damages every third frame. */
export class LoopPort {
  readable = null;
  writable = null;
  #isNoisy;

  constructor(isNoisy) {
    this.#isNoisy = isNoisy;
  }

  async open() {
    let frames = 0;
    let line;
    this.readable = new ReadableStream({
      start: (controller) => void (line = controller),
      cancel: () => void (line = null),
    });
    this.writable = new WritableStream({
      write: (frame) => {
        const bytes = frame.slice();
        frames++;
        if (this.#isNoisy() && frames % EVERY === 0) bytes[0] ^= 0x80; // damages the first code, so that it leads to a wrong place
        // the bytes arrive some time after they were written, as on a line
        setTimeout(() => {
          for (let at = 0; at < bytes.length; at += PIECE) line?.enqueue(bytes.subarray(at, at + PIECE));
        });
      },
    });
  }

  async close() {
    this.readable = null;
    this.writable = null;
  }
}
