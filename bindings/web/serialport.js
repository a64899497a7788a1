// Offers COBS as streams of Node. You can pipe them from and to a port of the package serialport:
//
//     port.pipe(new FrameDecoderTransform({ skipFirst: true })).on("data", ({ kind, message }) => ..);
import { Transform } from "node:stream";
import { FrameDecoder, encode, load } from "./dist/node.js";

/** Turns bytes into outcomes. There is one outcome for each piece that a sentinel ends; its `kind` is `message`, `broken` or `tooLong`. */
export class FrameDecoderTransform extends Transform {
  #options;
  #decoder;

  constructor(options) {
    super({ readableObjectMode: true });
    this.#options = options;
  }

  _construct(done) {
    load().then(() => {
      this.#decoder = new FrameDecoder(this.#options);
      done();
    }).catch(done);
  }

  _transform(chunk, encoding, done) {
    try {
      this.#decoder.push(chunk, (outcome) => this.push(outcome));
      done();
    } catch (error) {
      done(error);
    }
  }

  _destroy(error, done) {
    this.#decoder?.close();
    done(error);
  }

  /** Whether a frame has begun but no sentinel has ended it yet. */
  get unfinished() {
    return this.#decoder?.unfinished ?? false;
  }

  /** How many bytes `skipFirst` has skipped, including the first sentinel. */
  get skipped() {
    return this.#decoder?.skipped ?? 0;
  }
}

/** Turns messages into frames, each with a sentinel after it. */
export class FrameEncoderTransform extends Transform {
  #options;

  constructor({ sentinel = 0, ...others } = {}) {
    super({ writableObjectMode: true });
    for (const name of Object.keys(others)) throw new TypeError(`this class has no option “${name}”, only sentinel`);
    this.#options = { sentinel, terminated: true };
  }

  _construct(done) {
    load().then(() => done(), done);
  }

  _transform(message, encoding, done) {
    try {
      done(null, encode(message, this.#options));
    } catch (error) {
      done(error);
    }
  }
}
