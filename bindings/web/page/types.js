// Reads the types of elements that programs name. A list of numbers wider than bytes isn't read, because their byte order isn't known.

const BYTES = /\b(?:\w*int8(?:_t|(?:clamped)?array)?|[ui]8|[su]?byte|[su]?char|octet)\b/i;
const WIDE = /\b(?:\w*(?:int|float)(?:16|32|64|128)(?:_t|array)?|[uif](?:16|32|64|128)|[iu]size|size_t|u?(?:int|short|long)|float|double|wchar_t|char(?:16|32)_t|rune)\b|\bunsigned\b/i;
const CHARS = /(?:^|[^(\w])(char\s*\[\d*\])/; // an array of Java or C#, with the brackets before the name; an array of char in C is bytes

/** Returns why the elements of the type that a text names aren't bytes, or undefined if they are bytes or no type is named. */
export function wideFault(text) {
  const wide = text.replace(/\b(?:const|(?:un)?signed)\s+/g, "").match(CHARS)?.[1] ?? (BYTES.test(text) ? undefined : text.match(WIDE)?.[0]);
  return wide && `The numbers of “${wide}” have more than 8 bits, and the order of their bytes isn't known: write each byte separately.`;
}

/** Returns the part of a declaration that names types. The variable is left out, because its name may be the name of a type. */
export function typesIn(declaration) {
  const front = declaration.replace(/^\s*(?:(?:let|const|var|static|mut|pub)\s+)*[\w.$]+\s*:(?!:)/, ""); // of Rust and TypeScript
  return front === declaration ? front.replace(/[\w.$]+(\s*(?:\[\w*\]\s*)*)$/, "_$1") : front;
}
