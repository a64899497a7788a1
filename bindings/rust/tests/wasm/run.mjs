// Compares the calls of a module that was built from src/lib.rs with loops over single bytes: run.mjs MODULE
import assert from 'node:assert/strict'
import { readFile } from 'node:fs/promises'

const FILL = 0xee
const { instance } = await WebAssembly.instantiate(await readFile(process.argv[2]))
const calls = instance.exports
const at = (place) => new Uint8Array(calls.memory.buffer, place, 4096)
const source = at(calls.source())
const dest = at(calls.dest())

let state = 88172645463325252n
function below(end) {
  state ^= (state << 13n) & 0xffffffffffffffffn
  state ^= state >> 7n
  state ^= (state << 17n) & 0xffffffffffffffffn
  return Number((state >> 20n) % BigInt(end))
}

/** Bytes in which runs of any length are as likely as zeros in a row. */
function someBytes() {
  const lengths = [below(9), below(80), 250 + below(12), below(1200)]
  const zeros = [1, 2, 8, 100, 100000][below(5)]
  const greatest = [3, 20, 256][below(3)]
  return Array.from({ length: lengths[below(4)] }, () => (below(zeros) === 0 ? 0 : below(greatest)))
}

/** The frame of a message: blocks of a code and up to 254 bytes. */
function frameOf(message) {
  const frame = [1]
  let code = 0
  let isFull = false
  for (const byte of message) {
    if (isFull) {
      code = frame.push(1) - 1
      isFull = false
    }
    if (byte === 0) {
      code = frame.push(1) - 1
      continue
    }
    frame.push(byte)
    frame[code] += 1
    isFull = frame[code] === 255
  }
  return frame
}

/** What the bytes before the first zero decode to, what of it the whole blocks give, and whether the last one is whole. */
function read(bytes) {
  const output = []
  let kept = 0
  let missing = 0
  let code = 255
  for (const byte of bytes) {
    if (byte === 0) break
    if (missing > 0) {
      output.push(byte)
      missing -= 1
    } else {
      if (code !== 255) output.push(0)
      kept = output.length
      code = byte
      missing = code - 1
    }
    if (missing === 0) kept = output.length
  }
  return { output, kept, isWhole: missing === 0 }
}

const untouched = new Uint8Array(4096).fill(FILL)
let compared = 0
/** The call returned this result, and `dest` has as much of these bytes as fits in the room, and nothing else has changed. */
function same(call, found, result, bytes, room, input) {
  compared += 1
  const place = () => `${call} of [${input}], room for ${room}`
  if (found !== result) assert.equal(found, result, place())
  const expected = untouched.slice()
  expected.set(bytes.slice(0, room))
  if (Buffer.compare(dest, expected) !== 0) assert.deepEqual(dest, expected, place())
}

function checkEncoding() {
  const message = someBytes()
  const frame = frameOf(message)
  const sentinel = below(256)
  const expected = frame.map((byte) => byte ^ sentinel)
  source.set(message)
  for (const room of [0, frame.length - 1, frame.length, frame.length + below(40)]) {
    const fits = frame.length <= room
    dest.fill(FILL)
    const found = calls.encode(message.length, room, sentinel)
    same('encode', found, fits ? frame.length : -1, fits ? expected : [], room, message)

    dest.fill(FILL)
    const cut = below(message.length + 1)
    if (frameOf(message.slice(0, cut)).length <= room) {
      assert.equal(calls.push_message(0, cut, room), 0)
      assert.equal(calls.push_message(cut, message.length, room), fits ? 0 : -1)
      const written = fits ? frame : frameOf(message.slice(0, cut))
      same('finalize', calls.finalize(room), written.length, written, room, message)
    }
  }
}

function checkDecoding() {
  const bytes = below(2) === 0 ? someBytes() : [...frameOf(someBytes()), 0]
  const first = bytes.findIndex((byte) => byte !== 0)
  const piece = first < 0 ? [] : bytes.slice(first)
  const whole = read(piece)
  const room = Math.max(0, whole.output.length + below(4) - 1)
  const result = (length, isWhole) => (length > room ? -1 : isWhole ? length : -3 - length)
  source.set(bytes)
  dest.fill(FILL)
  const expected = bytes.length === 0 ? -2 : first < 0 ? -3 : result(whole.output.length, whole.isWhole)
  same('decode', calls.decode(bytes.length, room), expected, whole.output, room, bytes)

  const front = read(bytes)
  const sentinel = below(256)
  source.set(bytes.map((byte) => byte ^ sentinel))
  dest.fill(FILL)
  const kept = front.output.slice(0, front.kept)
  const found = calls.decode_with_sentinel(bytes.length, room, sentinel)
  const ofFront = bytes.length === 0 ? -2 : result(front.kept, front.isWhole)
  same('decode_with_sentinel', found, ofFront, kept, room, bytes)

  dest.fill(FILL)
  dest.set(bytes)
  const inPlace = bytes.length === 0 ? -2 : front.isWhole ? front.kept : -3 - front.kept
  const after = [...kept, ...bytes.slice(kept.length)]
  same('decode_in_place', calls.decode_in_place(bytes.length), inPlace, after, bytes.length, bytes)
}

function checkStream() {
  const stream = [...someBytes(), 0, ...frameOf(someBytes()), 0, ...someBytes(), 0].slice(0, 4000)
  stream[stream.length - 1] = 0
  const room = below(1300)
  const cut = below(stream.length + 1)
  source.set(stream)
  let start = 0
  let begun = 0
  dest.fill(FILL)
  for (const end of [cut, stream.length]) {
    while (start < end) {
      while (begun < stream.length && begun >= start && stream[begun] === 0) begun += 1
      const zero = stream.indexOf(0, begun)
      const found = calls.push_stream(start, end, room)
      start += calls.taken()
      if (begun >= end || zero < 0 || zero >= end) {
        assert.equal(found, -2)
        assert.equal(start, end)
        continue
      }
      const { output, isWhole } = read(stream.slice(begun, zero))
      assert.equal(start, zero + 1)
      const result = output.length > room ? -1 : isWhole ? output.length : -3 - output.length
      same('push_stream', found, result, output, room, stream)
      begun = start
      dest.fill(FILL)
    }
  }
}

for (let round = 0; round < 3000; round += 1) {
  checkEncoding()
  checkDecoding()
  checkStream()
}
console.log(`${compared} results, none differs`)
