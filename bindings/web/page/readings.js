// Chooses how to read a text that can be read in more than one way.

/**
 * Chooses one of several readings, each `{bytes, as}` or `{error, as}`: the reading with the name `wanted` if it has bytes, otherwise the
 * first one. `other` is the name of another reading, if that reading has bytes and its bytes are different.
 */
export function choice(readings, wanted) {
  const chosen = readings.find(({ bytes, as }) => bytes && as === wanted) ?? readings[0];
  const isOther = ({ bytes }) => bytes && !(bytes.length === chosen.bytes?.length && bytes.every((byte, at) => byte === chosen.bytes[at]));
  const other = readings.find(isOther);
  return other ? { ...chosen, other: other.as } : chosen;
}
