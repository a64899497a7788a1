// Reads bytes as programs contain them: arrays of C, Go, Java, JavaScript, Rust and Python, as they are declared, printed or written in
// JSON; strings with escapes; and calls that decode hex digits or base64. A text is read once, from its start to its end.
import { parseBase64 } from "./base64.js";
import { parseHex } from "./hex.js";
import { choice } from "./readings.js";
import { ESCAPED, Unreadable, demandOneReading, unescaped } from "./strings.js";
import { typesIn, wideFault } from "./types.js";

const LONGEST = 1 << 20;   // bytes of a value that is repeated
const DEEPEST = 16;        // nested brackets
const LONGEST_FRONT = 500; // how many characters of a declaration are read
const ENDED = " with a final 00";
const NONE = "This isn't a list of bytes, a string, or a call that returns bytes.";
const COMMENT = /("(?:\\[\s\S]|[^"\\])*"|'(?:\\[\s\S]|[^'\\])*')|\/\*[\s\S]*?\*\/|\/\/[^\n]*|#[^\n]*/g; // a string is matched too, so that no comment begins inside it

// The patterns of the parts of a text, each with the space after it. No pattern can match a text in two ways, so no pattern is slow.
const SPACE = /\s*/y;
const FRONT = /([\w\s$.,:;&*<>[\]]*)=(?!=)\s*/y; // a declaration, up to its “=”
const NAME = String.raw`[A-Za-z_$][\w.]*(?:::\w+)*!?`; // Uint8Array.of, std::vector, vec!
const OF = String.raw`(?:<[\w,<>*&:\s]*>\s*(?:\w+\s*)?)?`; // <uint8_t, 2> f
const SIZE = String.raw`(?:\[\d*\]\s*|\(\d*\)\s*)?`; // [2], or (2) as Node prints it
const TYPE = String.raw`\([\w\s]+\[\d*\]\s*\)\s*`; // (uint8_t[])
const BEFORE = new RegExp(String.raw`(${TYPE}|&*(?:(?:\[\d*\]\s*)?${NAME}(?:\s+${NAME})*\s*${OF}${SIZE})?)([[({])\s*`, "y"); // a bracket and the text before it
const CAST = /\((\w+(?:\s+\w+)*)\)\s*(?=[-\d'"(])/y;
const NUMBER = /(-?)(?:0x([0-9a-f][0-9a-f_]*)|0b([01][01_]*)|(\d[\d_]*))(?:_?(?:[ui]8|ul{0,2}|ll?))?(?![\w.])\s*/iy;
const SIGN = /'(?:\\[\s\S]|[^'\\])+'\s*/y; // the character that gdb prints after a number
const STRING = /(u8|br|rb|[bruL]?)("(?:\\[\s\S]|[^"\\])*"|'(?:\\[\s\S]|[^'\\])*')\s*/iy;
const AS = /as\s+(\w+)\s*/y;
const REPEATS = /(?:<repeats (\d+) times>|;\s*(\d+)(?=\s*\]))\s*/y; // in the form of gdb, and in that of Rust
const PLUS = /\+\s*(?=[bru]{0,2}["'])/iy;
const CODING = /,\s*['"](\w+)['"]\s*/y;
const ARRAY = /['"](\w)['"]\s*,\s*/y; // the type code before the list of a Python array
const DTYPE = /,\s*dtype\s*=\s*['"]?(?:np\.|numpy\.)?(\w+)['"]?\s*/y;
const COMMA = /,\s*/y;
const CLOSING = { "[": /\]\s*/y, "(": /\)\s*/y, "{": /\}\s*/y };
const END = /[;,]?\s*(?:unsigned int \w+_len = (\d+);\s*)?$/y; // with the length that `xxd -i` prints

/** Reads an array, a string or a call. Returns undefined for another text. `wanted` is the name of the reading that the user chose. */
export function parseLiteral(text, wanted) {
  const bare = text.trim();
  const isUnquoted = !/["'`]/.test(bare.replace(/\\["']/g, "")) && /^[^[\](){}]*\\(x[0-9a-f]{2}|[0-7])/i.test(bare);
  if (!isUnquoted && !/[[({"']/.test(bare)) return undefined;
  const listed = parseListed(bare, wanted);
  if (listed) return listed;
  try {
    return isUnquoted ? insideOf(bare) : new Reader(bare).whole(wanted);
  } catch (error) {
    if (error instanceof Unreadable) return { error: error.message, as: error.as };
    throw error;
  }
}

/**
 * Reads lists whose brackets have only numbers: pairs of hex digits, with commas as Rust prints them or with spaces, or decimal numbers
 * with spaces, as Go and numpy print them.
 */
function parseListed(text, wanted) {
  const [, inside] = text.match(/^[[({]\s*([0-9a-f]+(?:\s+[0-9a-f]+)*)\s*[\])}]$/i) ?? text.match(/^\[\s*([0-9a-f]{2}(?:,\s*[0-9a-f]{2})*)\s*,?\s*\]$/i) ?? [];
  if (inside === undefined) return undefined;
  const words = inside.split(/[\s,]+/);
  const hex = words.every((word) => word.length === 2) && { ...parseHex(inside), as: "hex" };
  if (hex && words.some((word) => /[a-f]|^0/i.test(word))) return hex;
  if (inside.includes(",") || words.length < 2 || !words.every((word) => /^(?:0|[1-9]\d{0,2})$/.test(word) && Number(word) < 256)) return undefined;
  const decimal = { bytes: Uint8Array.from(words, Number), as: "decimal numbers" };
  return choice(hex ? [decimal, hex] : [decimal], wanted);
}

/** Returns the bytes of a string's contents, without its quotes. */
function insideOf(text) {
  demandOneReading([{ prefix: "b", quote: '"', content: text }], false);
  return { bytes: unescaped(text, { isBytes: true }), as: ESCAPED };
}

class Reader {
  #text;
  #at = 0;
  #depth = 0;
  #bytes = [];
  #kinds = new Set();
  #strings = [];
  #isJoined = false; // whether several strings follow one another
  #isOfGdb;          // whether the text is from gdb, which puts commas between strings that repeat

  constructor(text) {
    this.#text = text.replaceAll("'static", "").replace(/" *\\\n\s*"/g, '" "').replace(/, buffer: ArrayBuffer\(\d+\), byteLength: [^[\]]*\]$/, "]").replace(COMMENT, (all, string) => string ?? " ");
    this.#isOfGdb = this.#text.includes("<repeats ");
    this.#take(SPACE);
  }

  /** Takes the text that a pattern matches here, and returns the groups of the match, or none. */
  #take(pattern) {
    pattern.lastIndex = this.#at;
    const found = pattern.exec(this.#text);
    if (found) this.#at = pattern.lastIndex;
    return found ?? [];
  }

  #demandBytes(types) {
    const fault = types && wideFault(types);
    if (fault) throw new Unreadable(fault);
  }

  /** Returns the text at this place, for an error message. */
  #rest() {
    return `“${this.#text.slice(this.#at).match(/^[^,\])}]*/)[0].trim().slice(0, 40)}”`;
  }

  whole(wanted) {
    if (/(?:^|[\s,\d])(?:\.\.\.|…)(?=[\s,\])}>]|$)/.test(this.#text.replace(/"[^"]*"|'[^']*'/g, ""))) throw new Unreadable("Bytes are left out at the “...”.");
    const front = (this.#take(FRONT)[1] ?? "").slice(-LONGEST_FRONT);
    this.#demandBytes(typesIn(front));
    if (this.#stringsHere()) {
      if (front === "") demandCharacters(this.#strings);
    } else this.#value();
    const [end, length] = this.#take(END);
    if (end === undefined) throw new Unreadable(this.#at < this.#text.length ? `The value ends before ${this.#rest()}, which isn't a part of a list of bytes.` : NONE);
    if (length && Number(length) !== this.#bytes.length) throw new Unreadable(`The length is given as ${length}, but there are ${this.#bytes.length} bytes.`);
    demandOneReading(this.#strings, this.#isJoined || /\w\s*\[\d*\]\s*$|\*\s*\w+\s*$|^\$/.test(front));
    return this.#declared(front, wanted);
  }

  /** Returns the bytes as they are declared. In C, 00 fills the array after a string; without a length, the string may end with one 00. */
  #declared(front, wanted) {
    const as = nameOf(this.#kinds);
    const isString = as === ESCAPED || as === "a string";
    const sizes = [...front.matchAll(/[[;,]\s*(\d+)\s*[\]>]/g)].map(([, size]) => Number(size));
    const places = sizes.reduce((product, size) => product * size, 1);
    if (isString && sizes.length === 1 && /\w\s*\[\d+\]\s*$/.test(front)) this.#repeat([0], Math.max(0, places - this.#bytes.length));
    if (sizes.length > 0 && places !== this.#bytes.length) throw new Unreadable(`The declaration is for ${places} bytes, but there are ${this.#bytes.length}.`);
    const bytes = Uint8Array.from(this.#bytes);
    if (!isString || !/\w\s*\[\]\s*$|^\$\d+\s*$/.test(front)) return { bytes, as };
    return choice([{ bytes, as }, { bytes: Uint8Array.of(...bytes, 0), as: as + ENDED }], wanted);
  }

  /** Takes strings that follow one another, which C joins, or which gdb prints if they repeat. Returns whether there are any. */
  #stringsHere() {
    const before = this.#strings.length;
    for (let [, prefix, quoted] = this.#take(STRING); quoted; [, prefix, quoted] = this.#take(STRING)) {
      const content = quoted.slice(1, -1);
      const from = this.#bytes.length;
      this.#strings.push({ prefix, quote: quoted[0], content });
      this.#kinds.add(content.includes("\\") ? "escapes" : "string");
      for (const byte of unescaped(content, { isBytes: /b/i.test(prefix), isRaw: /r/i.test(prefix) })) this.#bytes.push(byte);
      this.#repeated(from);
      this.#take(PLUS);
      if (this.#depth === 0 && this.#isOfGdb) this.#take(COMMA);
    }
    this.#isJoined ||= this.#strings.length > before + 1;
    return this.#strings.length > before;
  }

  /** Repeats the bytes from `from` on, if the text says how often. */
  #repeated(from) {
    const [, byGdb, byRust] = this.#take(REPEATS);
    if (byGdb ?? byRust) this.#repeat(this.#bytes.splice(from), Number(byGdb ?? byRust));
  }

  #repeat(bytes, times) {
    if (bytes.length * times > LONGEST) throw new Unreadable(`${times} bytes are too many.`);
    for (let i = 0; i < times; i++) this.#bytes.push(...bytes);
  }

  /** Takes a list in brackets or a call, with the type or name before it. */
  #value() {
    const [, before, open] = this.#take(BEFORE);
    if (open === undefined || ++this.#depth > DEEPEST) throw new Unreadable(open === undefined && this.#at < this.#text.length ? `${this.#rest()} isn't a byte, a string, or a list of bytes.` : NONE);
    this.#demandBytes(before);
    const from = this.#bytes.length;
    const [name] = before.match(/[A-Za-z_$][\w.:]*!?(?=\s*$)/) ?? [];
    if (open === "(" && name) this.#call(name);
    else this.#items(open);
    this.#depth--;
    const [, size = this.#bytes.length - from] = before.match(/[[(](\d+)[\])]/) ?? [];
    if (Number(size) !== this.#bytes.length - from) throw new Unreadable(`The length is given as ${size}, but there are ${this.#bytes.length - from} bytes.`);
  }

  /** Takes the items up to the closing bracket, and returns how many there are. */
  #items(open) {
    for (let count = 0; ; count++) {
      if (this.#take(CLOSING[open]).length > 0) return count;
      if (count > 0 && this.#take(COMMA).length === 0) throw new Unreadable(this.#at < this.#text.length ? `${this.#rest()} isn't a byte: write a comma between two numbers.` : NONE);
      if (count > 0 && this.#take(CLOSING[open]).length > 0) return count;
      this.#item(open === "(");
    }
  }

  #item(isGroup) {
    const from = this.#bytes.length;
    const [, cast] = this.#take(CAST);
    const number = this.#take(NUMBER);
    if (number.length > 0) this.#bytes.push(byteOf(number, this.#kinds));
    else if (/[-\d,]/.test(this.#text[this.#at])) throw new Unreadable(faultOf(this.#text.slice(this.#at).match(/^[^\s,;()[\]{}]*/)[0]));
    else if (!this.#stringsHere()) this.#value();
    else if (/^0x[0-9a-f]{1,2}$/i.test(this.#strings.at(-1).content)) this.#bytes.splice(from, Infinity, parseInt(this.#strings.at(-1).content, 16));
    else if (!isGroup && this.#bytes.length - from !== 1 && !/b/i.test(this.#strings.at(-1).prefix)) throw new Unreadable(`“${this.#strings.at(-1).content.slice(0, 40)}” isn't a byte.`);
    this.#demandBytes(cast);
    if (",)]}".includes(this.#text[this.#at])) return; // most items of long lists end here
    if (number.length > 0) this.#take(SIGN);
    this.#demandBytes(this.#take(AS)[1]);
    this.#repeated(from);
  }

  /** Takes the arguments of a call: digits or base64 in quotes, a list as Python prints it, or another call. */
  #call(name) {
    if (this.#decoded(name)) return;
    if (/(^|\.)array$/.test(name) && /['"[]/.test(this.#text[this.#at])) {
      const [, code] = this.#take(ARRAY);
      this.#item(true);
      const [, type = "64 bits"] = this.#take(DTYPE);
      if (this.#take(CLOSING["("]).length === 0) throw new Unreadable(NONE);
      if (code ? !/b/i.test(code) : type === "64 bits") throw new Unreadable(`The numbers of ${code ? `an array of “${code}”` : "an array without dtype=uint8"} have more than 8 bits: write each byte separately.`);
      this.#demandBytes(type);
      return;
    }
    const isAny = /(^|\.)(of|u?byteArrayOf|listOf)$|^array$/.test(name);
    if (!isAny && /^\d+\s*\)/.test(this.#text.slice(this.#at, this.#at + 20))) throw new Unreadable(`${name}(${this.#rest().slice(1, -1)}) returns bytes that this text doesn't have.`);
    const count = this.#items("(");
    if (!isAny && count > 1) throw new Unreadable(`${name}() with ${count} arguments can't be read.`);
  }

  /** Takes the arguments of a call if the call decodes hex digits or base64, and returns whether it does. */
  #decoded(name) {
    const start = this.#at;
    let inside = "";
    for (let [, , quoted] = this.#take(STRING); quoted; [, , quoted] = this.#take(STRING)) inside += quoted.slice(1, -1);
    const [, coding = ""] = this.#take(CODING);
    const isHex = /from_?hex$|unhexlify$|(^|\.)hex!$|hex(::|\.)decode(String)?$/i.test(name) || /^hex$/i.test(coding);
    const isBase64 = /b64decode$|^atob$|from_?base64$|base64(::|\.)decode$/i.test(name) || /^base64$/i.test(coding);
    if ((!isHex && !isBase64) || start === this.#at || this.#take(CLOSING["("]).length === 0) {
      this.#at = start;
      return false;
    }
    const { bytes, error } = isHex ? parseHex(inside) : (parseBase64(inside) ?? { error: "The text in quotes isn't base64." });
    if (!bytes) throw new Unreadable(error);
    this.#kinds.add(isHex ? "digits" : "base64");
    this.#repeat(bytes, 1);
    return true;
  }
}

/** Throws an error if the text is only a string of digits or base64, because these may mean bytes. */
function demandCharacters(strings) {
  const inside = strings.map(({ content }) => content).join("");
  const mayBeDigits = !inside.includes("\\") && !strings.some(({ prefix }) => /b/i.test(prefix)) && (parseHex(inside).bytes?.length > 0 || parseBase64(inside));
  if (mayBeDigits) throw new Unreadable("The text in quotes can be characters, or digits of bytes. For digits leave out the quotes; for characters put b before the quotes.");
}

function nameOf(kinds) {
  if (kinds.has("signed")) return "numbers with a sign";
  if (kinds.has("escapes")) kinds.delete("string");
  if (kinds.size > 1) return "a list of numbers";
  return { hex: "a list", decimal: "decimal numbers", escapes: ESCAPED, string: "a string", digits: "hex", base64: "base64" }[[...kinds][0]] ?? "a list";
}

function byteOf([whole, minus, hex, binary, decimal], kinds) {
  if (/^0\d/.test(decimal)) throw new Unreadable(`“${whole.trim()}” begins with 0: it could be octal, decimal or hexadecimal.`);
  const number = parseInt((hex ?? binary ?? decimal).replaceAll("_", ""), hex ? 16 : binary ? 2 : 10);
  if (number > (minus ? 128 : 255)) throw new Unreadable(`“${whole.trim()}” isn't a byte: it is ${minus ? "less than -128" : "more than 255"}.`);
  kinds.add(minus ? "signed" : hex ? "hex" : binary ? "binary" : "decimal");
  return minus ? (256 - number) & 255 : number;
}

/** Returns why a word that begins like a number isn't a byte. */
function faultOf(word) {
  if (word === "") return "There is nothing between two commas.";
  return wideFault(word.replace(/^-?\d[\d_]*/, "")) ?? `“${word}” isn't a number: in a list, hexadecimal numbers begin with 0x.`;
}
