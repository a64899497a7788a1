// Finds out how much memory the modules need that are made during a call.

/** Calls `act` with two functions. One returns the number of pages of the last module's memory, the other the number of modules made. */
export async function memoryOf(act) {
  const { Instance, instantiate } = WebAssembly;
  let last;
  let count = 0;
  const note = (instance) => {
    if (!instance.exports.memory) return instance; // isSupported made it
    last = instance;
    count++;
    return instance;
  };
  WebAssembly.Instance = new Proxy(Instance, { construct: (target, args) => note(new target(...args)) });
  WebAssembly.instantiate = async (...args) => note(await instantiate(...args));
  try {
    await act(
      () => last.exports.memory.buffer.byteLength / 65536,
      () => count,
    );
  } finally {
    Object.assign(WebAssembly, { Instance, instantiate });
  }
}
