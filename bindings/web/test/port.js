// A serial port without a device, with the interface and the rules of Web Serial: a stream is made when it is first read or written,
// `close` rejects while a stream is locked, `cancel` and writes take time, and after a fault of the line has ended a stream, the port
// has a new stream.

export class FakePort {
  opened = null;
  sent = [];
  cancelMilliseconds = 20;
  writeMilliseconds = 0;
  hold = () => {}; // what each write waits for, with the signal of its abort
  #readable = null;
  #writable = null;
  #controller = null;
  #waiting = [];

  async open(options) {
    if (this.opened) throw new DOMException("The port is already open.", "InvalidStateError");
    this.opened = options;
  }

  get readable() {
    if (!this.opened) return null;
    this.#readable ??= new ReadableStream({
      start: (controller) => {
        this.#controller = controller;
        for (const bytes of this.#waiting.splice(0)) controller.enqueue(bytes);
      },
      cancel: async () => {
        await pause(this.cancelMilliseconds);
        this.#readable = null;
      },
    });
    return this.#readable;
  }

  get writable() {
    if (!this.opened) return null;
    this.#writable ??= new WritableStream({
      write: async (bytes, controller) => {
        await pause(this.writeMilliseconds);
        await this.hold(controller.signal);
        this.sent.push(...bytes);
      },
      abort: () => void (this.#writable = null),
      close: () => void (this.#writable = null),
    });
    return this.#writable;
  }

  async close() {
    if (!this.opened) throw new DOMException("The port is already closed.", "InvalidStateError");
    await Promise.all([this.#readable?.cancel(), this.#writable?.abort()]);
    this.#readable = this.#writable = null;
    this.opened = null;
  }

  async getSignals() {
    return {};
  }

  async setSignals(signals) {
    this.signals = { ...this.signals, ...signals };
  }

  getInfo() {
    return { usbVendorId: 0x2341, usbProductId: 0x43 };
  }

  /** Receives bytes from the device. */
  give(...bytes) {
    if (this.#readable) this.#controller.enqueue(Uint8Array.from(bytes));
    else this.#waiting.push(Uint8Array.from(bytes));
  }

  /** Reports a fault of the line: "FramingError", "BreakError", or "NetworkError" if the device is unplugged. */
  fail(name) {
    const controller = this.#controller;
    this.#readable = null;
    controller.error(new DOMException(`the ${name}`, name));
  }
}

const pause = (milliseconds) => new Promise((done) => setTimeout(done, milliseconds));
