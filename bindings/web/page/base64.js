// Reads base64, also with the alphabet for addresses.

/** Returns `{bytes, as}` for a text in base64, or undefined for another text. */
export function parseBase64(text) {
  const bare = text.trim().replace(/\n/g, "").replaceAll("-", "+").replaceAll("_", "/");
  if (bare.length < 4 || bare.length % 4 !== 0 || !/^[a-z0-9+/]+={0,2}$/i.test(bare) || !/[G-Z+/=]/.test(bare)) return undefined;
  try {
    return { bytes: Uint8Array.from(atob(bare), (sign) => sign.charCodeAt(0)), as: "base64" };
  } catch {
    return undefined;
  }
}
