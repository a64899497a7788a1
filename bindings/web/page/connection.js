// An open serial port with one reader and one writer. This module doesn't depend on the page.
import { FrameDecoder, encode } from "../jcobs.js";
import { joined } from "./bytes.js";

const KEPT = 65_536; // how many bytes of a piece are kept as they arrived

export class Connection {
  #port;
  #options;
  #on;
  #isClosing = false;
  #reader = null;
  #reading = Promise.resolve();
  #writer = null;

  /**
   * `port` is an open Web Serial port. `options` are those of a `FrameDecoder`, for each stream of the port; for a device they include
   * `skipFirst`. `on.outcome` is called with the outcome of each frame; if the outcome isn't a message, also with the bytes of the
   * frame as they arrived. `on.left` is called with the number of bytes that were skipped before the first sentinel, and `on.fault`
   * with each fault of the line.
   */
  constructor(port, options, on) {
    this.#port = port;
    this.#options = options;
    this.#on = on;
  }

  /** Reads until the port closes. A fault of the line ends a stream. The port then has another stream, which may begin inside a frame. */
  async receive() {
    while (this.#port.readable && !this.#isClosing) {
      this.#reading = this.#readAll();
      const fault = await this.#reading;
      if (!fault || this.#isClosing) return;
      this.#on.fault(fault);
      if (fault.name === "NetworkError") return;
    }
  }

  /** Reads one stream of the port to its end, and returns the fault that ended it, or null. */
  async #readAll() {
    const decoder = new FrameDecoder(this.#options);
    const take = this.#taker(decoder);
    const reader = this.#port.readable.getReader();
    this.#reader = reader;
    try {
      for (let next = await reader.read(); !next.done; next = await reader.read()) take(next.value);
      return null;
    } catch (fault) {
      return fault;
    } finally {
      reader.releaseLock();
      decoder.close();
    }
  }

  /** Returns a function that takes the chunks of a stream. */
  #taker(decoder) {
    let given = 0;
    let isLeftSaid = false;
    let begun = []; // the bytes of the piece that no sentinel has ended yet
    const sayLeft = () => {
      if (!isLeftSaid && decoder.skipped > 1) this.#on.left(decoder.skipped);
      isLeftSaid = true;
    };
    return (chunk) => {
      const skipped = decoder.skipped;
      let from = 0;
      decoder.push(chunk, (outcome, end) => {
        sayLeft();
        from = Math.max(from, decoder.skipped - skipped);
        this.#on.outcome(outcome, outcome.kind === "message" ? undefined : keptOf([...begun, chunk.subarray(from, end)], this.#options.sentinel));
        begun = [];
        from = end;
      });
      given += chunk.length;
      if (given > decoder.skipped) sayLeft();
      from = Math.max(from, decoder.skipped - skipped);
      if (!decoder.unfinished) begun = [];
      else if (lengthOf(begun) <= KEPT) begun.push(chunk.slice(from));
    };
  }

  /** Sends a message, after all earlier messages. */
  async send(message) {
    const frame = encode(message, { sentinel: this.#options.sentinel, terminated: true });
    this.#writer ??= this.#port.writable.getWriter();
    const writer = this.#writer;
    try {
      await writer.write(frame);
    } catch (error) {
      if (this.#writer === writer) this.#releaseWriter(); // the port then has another stream
      throw error;
    }
  }

  #releaseWriter() {
    this.#writer?.releaseLock();
    this.#writer = null;
  }

  /** Closes the port. First its two streams must be unlocked. */
  async close() {
    this.#isClosing = true;
    await this.#reader?.cancel().catch(() => {});
    await this.#reading;
    await this.#writer?.abort(new Error("the line was closed")).catch(() => {}); // waiting messages fail with this error
    this.#releaseWriter();
    await this.#port.close();
  }
}

const lengthOf = (parts) => parts.reduce((sum, part) => sum + part.length, 0);

/** Joins the parts of a piece, without the sentinels before it. Returns undefined if the piece is too long to be kept. */
function keptOf(parts, sentinel) {
  if (lengthOf(parts) > KEPT) return undefined;
  const bytes = joined(parts);
  return bytes.subarray(bytes.findIndex((byte) => byte !== sentinel));
}
