// Computes four of the CRCs that cobs_watch can check. They detect damage that COBS doesn't notice.

export const KINDS = {
  "crc16-ccitt-false": { bits: 16, poly: 0x1021, init: 0xffff, isReflected: false, xorOut: 0 },
  "crc16-modbus": { bits: 16, poly: 0x8005, init: 0xffff, isReflected: true, xorOut: 0 },
  crc32: { bits: 32, poly: 0x04c11db7, init: 0xffffffff, isReflected: true, xorOut: 0xffffffff },
  crc8: { bits: 8, poly: 0x07, init: 0, isReflected: false, xorOut: 0 },
};

/** Returns the bits of a number in reverse order. */
function reversed(number, bits) {
  let other = 0;
  for (let i = 0; i < bits; i++) other |= ((number >>> i) & 1) << (bits - 1 - i);
  return other >>> 0;
}

/** Returns the checksum of bytes, with its high byte first. */
export function crcOf(bytes, kind) {
  const { bits, poly, init, isReflected, xorOut } = KINDS[kind];
  const top = 32 - bits;
  let register = (init << top) >>> 0;
  for (const byte of bytes) {
    register ^= (isReflected ? reversed(byte, 8) : byte) << 24;
    for (let i = 0; i < 8; i++) register = register & 0x80000000 ? (register << 1) ^ (poly << top) : register << 1;
  }
  const plain = register >>> top;
  const sum = ((isReflected ? reversed(plain, bits) : plain) ^ xorOut) >>> 0;
  return Uint8Array.from({ length: bits / 8 }, (_, i) => sum >>> (bits - 8 * (i + 1)));
}
