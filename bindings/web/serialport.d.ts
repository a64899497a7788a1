import { Transform } from "node:stream";
import type { DecoderOptions, SentinelOptions } from "./jcobs.js";

/**
 * Turns a stream of bytes into a stream of outcomes. There is one outcome for each piece that a sentinel ends. Bytes after the last
 * sentinel have no outcome. The class loads the module itself. If the module can't be loaded, or if an option is invalid, the
 * stream emits `error`.
 */
export class FrameDecoderTransform extends Transform {
  constructor(options?: DecoderOptions);
  /**
   * Whether a frame has begun but no sentinel has ended it yet. At the end of the stream, the value says whether the last frame
   * was cut off. The bytes that `skipFirst` skips begin no frame.
   */
  get unfinished(): boolean;
  /** How many bytes `skipFirst` has skipped, including the first sentinel. */
  get skipped(): number;
}

/**
 * Turns messages into frames, each with a sentinel after it. The class loads the module itself. If the module can't be loaded, the
 * stream emits `error`. If the sentinel is invalid, the first message makes the stream emit `error`. A message that isn't `Bytes`
 * also makes the stream emit `error`.
 *
 * @throws TypeError for an option other than `sentinel`
 */
export class FrameEncoderTransform extends Transform {
  constructor(options?: SentinelOptions);
}
