// Written by pack.mjs.
import jcobs from "./auto.cjs";
export const { CobsError, FrameDecoder, FrameDecoderStream, FrameEncoderStream, decode, encode, encodeInto, frames, isSupported, load, loadSync, maxEncodedLength } = jcobs;
