// Makes the module's calls directly. Each buffer is between guard bytes, which no call may change.
const GUARD = 64;
const GUARD_BYTE = 0xa5;
const STATUS = ["ok", "more", "too_small", "invalid", "empty"];

export class Raw {
  #places = [];

  constructor(module) {
    this.calls = new WebAssembly.Instance(module, {}).exports;
    this.answerAt = Number(this.calls.__heap_base.value);
    this.clear();
  }

  get #bytes() {
    return new Uint8Array(this.calls.memory.buffer);
  }

  clear() {
    this.#places = [];
    this.end = this.answerAt + 128;
  }

  /** Returns a place in the memory that has these bytes, between guard bytes. */
  place(bytes) {
    const place = { at: this.end + GUARD, length: bytes.length };
    this.end = Math.ceil((place.at + bytes.length + GUARD) / 16) * 16;
    const missing = Math.ceil((this.end - this.#bytes.length) / 65536);
    if (missing > 0) this.calls.memory.grow(missing);
    this.#bytes.fill(GUARD_BYTE, place.at - GUARD, this.end);
    this.#bytes.set(bytes, place.at);
    this.#places.push(place);
    return place;
  }

  read({ at, length }, count = length) {
    return this.#bytes.slice(at, at + count);
  }

  /** Makes a call that returns a jcobs_answer. A place is passed as a pointer and a length, `{state}` only as a pointer. */
  answer(name, ...words) {
    this.#bytes.fill(0xee, this.answerAt, this.answerAt + 24);
    this.call(name, this.answerAt, ...words);
    const view = new DataView(this.calls.memory.buffer, this.answerAt, 24);
    const [consumed, length] = [Number(view.getBigUint64(8, true)), Number(view.getBigUint64(16, true))];
    return { status: STATUS[view.getUint32(0, true)], consumed, length };
  }

  call(name, ...words) {
    const args = words.flatMap((word) => {
      if (typeof word !== "object") return [word];
      return word.state ? [word.state.at] : [word.at, word.length];
    });
    const result = this.calls[name](...args);
    this.#checkGuards(name);
    return result;
  }

  #checkGuards(name) {
    for (const { at, length } of this.#places) {
      const bytes = this.#bytes;
      for (let i = 1; i <= GUARD; i++) {
        const isWhole = bytes[at - i] === GUARD_BYTE && bytes[at + length + i - 1] === GUARD_BYTE;
        if (!isWhole) throw new Error(`${name} wrote outside of its buffer`);
      }
    }
  }
}
