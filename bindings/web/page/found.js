// Finds the bytes in a text that also has other words: lines of a log, the answer of a program, a table. The page offers these bytes with
// their number and takes them only if the user wants them, so nothing is left out unnoticed.
import { wideFault } from "./types.js";

/** What stands before the bytes of a line. No pattern matches digits that may be bytes. */
const FRONTS = [
  /\[(?=[^\]]{0,40}[:.])[\d:., T/-]{1,40}\]\s*/y, // a time in brackets
  /\[[A-Za-z][\w .:/\\-]*\]\s*/y, // a place or a tag in brackets
  /\d{4}-\d\d-\d\d[T ]?/y, // a date
  /(?:Jan|Feb|Mar|Apr|May|Jun|Jul|Aug|Sep|Oct|Nov|Dec)\s+\d+\s+/y,
  /\d{1,2}:\d\d:\d\d(?:[.,]\d+)?(?:Z|[+-]\d\d:?\d\d)?:?\s*/y, // a time
  /\d+\.\d{2,9}:?\s+/y, // seconds
  /\d+-\d+\s+(?=[A-Za-z])/y, // samples, as PulseView numbers them
  /[IWEDV] \(\d+\)\s*/y, // ESP-IDF
  /<\w+>\s*/y, // a level
  /(?:<-+|-+>|=>|<+|>+|←|→)\s*/y,
];

/** A name or a word. It has a letter that is no digit, because otherwise it may be bytes. */
const NAMES = [
  /&?[A-Za-z_][\w.\/#-]*(?:[ \t]+(?!0x)[\w.\/#-]+){0,3}[ \t]*(?:=|(?:(?:\(\d+(?: bytes)?\)|\[\d+\])[ \t]*)?:)[ \t]*/y,
  /[A-Za-z_]+[ \t]+/y,
];
const NOTE = /\s(?:\/\/|#|--|;).*$/;
const TAIL = /^((?:(?:0x)?[0-9a-f]{2}[ ,]+){2,})(?=\(|\W?[a-z]*[g-z]).*$/i; // bytes and the words after them
const OFFSET = /^(?:0x)?[0-9a-f]{4,}:?\s/i;
const HEADING = /^(?:.* )?(?:message|partial) \d+$/; // before a dump of cobs_watch
const NUMBERED = /^(?:message|partial) (\d+) ((?:[0-9a-f]{2})*)$/; // as cobs_watch prints a message
const COLUMN = /^(?:data|value|hex|bytes?|payload)$/i;
const LIST = /\[[^[\]]*\]|\bb(?:"(?:\\.|[^"\\])*"|'(?:\\.|[^'\\])*')/g;

/** Returns the line without the characters that a dump prints after its bytes. */
function withoutCharacters(line) {
  const bar = line.indexOf(" |");
  const end = bar < 0 ? line.lastIndexOf("  ") : bar;
  const isByte = bar < 0 && /^\s*[0-9a-f]{2}(?: |$)/i.test(line.slice(end)); // of the second half of a row
  return end < 0 || isByte ? line : line.slice(0, end);
}

/** Returns whether a text in brackets is a time, a place or a tag, and no list. */
const isStamp = (list) => /^\[[A-Za-z]/.test(list) || (list.length < 50 && /^\[[\d:., T/-]+\]$/.test(list) && /[:.]/.test(list));

/** Returns the line without the words before its bytes. */
function withoutFront(line) {
  let at = line.length - line.trimStart().length;
  for (let isCut = true; isCut; ) {
    isCut = [...FRONTS, ...NAMES].some((front) => {
      front.lastIndex = at;
      const [found] = front.exec(line) ?? [];
      if (!found || (NAMES.includes(front) && !/[g-z_]/i.test(found))) return false;
      at += found.length;
      return true;
    });
  }
  return line.slice(at);
}

const cellsOf = (line) => line.split(/[,;\t]/).map((cell) => cell.trim().replace(/^(["'])(.*)\1$/, "$2"));

/** Returns the bytes in the column of a table whose head names it, as hex. */
function ofTable([head, ...rows]) {
  const at = cellsOf(head).findIndex((cell) => COLUMN.test(cell));
  if (at < 0 || rows.length === 0) return [];
  const cells = rows.map((row) => cellsOf(row)[at] ?? "").filter((cell) => cell !== "");
  return cells.every((cell) => /^(?:0x)?[0-9a-f]{2}$/i.test(cell)) ? [cells.join(" ")] : [];
}

/** Returns the bytes that each object of a line of JSON names, as hex. */
function ofObjects(lines) {
  try {
    const values = lines.map((line) => JSON.parse(line)).map(({ hex, data }) => hex ?? data).filter((value) => value !== undefined);
    return values.length > 0 && values.every((value) => typeof value === "string") ? [values.join(" ")] : [];
  } catch {
    return [];
  }
}

/** Returns the only list or string of bytes in a text. A list after a length isn't returned, because its length may be wrong. */
function ofList(text) {
  const left = text.match(/^[ \t]*left: (.*(?:\n(?![ \t]*right: ).*)*)/m)?.[1] ?? text; // of Rust's assert_eq
  const lists = [...left.matchAll(LIST)].filter(({ 0: list, index }) => !isStamp(list) && !(list[0] === "[" && /\w/.test(left[index - 1] ?? ""))); // f[8] has an index
  if (lists.length !== 1) return [];
  const [{ 0: list, index }] = lists;
  const before = left.slice(0, index);
  const isSized = /[\])]\s*=?$/.test(before.trimEnd().slice(-20)) && !isStamp(before.trim());
  return isSized || /array/i.test(before) || /\.\.\.|…/.test(list) ? [] : [list];
}

/** Returns the lines after each heading. */
function blocksOf(lines) {
  const blocks = [];
  for (const line of lines) {
    if (HEADING.test(line)) blocks.push([]);
    else if (/^[0-9a-f]{8} /.test(line)) blocks.at(-1)?.push(line);
  }
  return blocks.map((block) => block.join("\n")).filter((block) => block !== "");
}

/** Returns the texts in a text that may be nothing but bytes, the likeliest first. Each text is a list of parts that follow one another. */
export function textsIn(text) {
  if (wideFault(text)) return [];
  const lines = text.split("\n").map((line) => line.trimEnd()).filter((line) => line !== "");
  const bare = lines.map(withoutFront);
  const withDigits = bare.filter((line) => /[0-9a-f]{2}|\d|["']/i.test(line));
  const isCut = bare.some((line, at) => line !== lines[at].trimStart());
  const cut = (part) => withDigits.map((line) => part(line).trimEnd()).filter((line) => line !== "").join("\n");
  const numbered = lines.map((line) => line.match(/(?:message|partial) .*$/)?.[0].match(NUMBERED)).filter((found) => found && Number(found[1]) * 2 === found[2].length);
  return [
    numbered.length > 0 ? numbered.map(([, , digits]) => digits) : [],
    lines.some((line) => HEADING.test(line)) ? blocksOf(lines) : [],
    ofTable(lines),
    ofObjects(lines),
    isCut ? [withDigits.join("\n")] : [],
    isCut && !withDigits.some((line) => OFFSET.test(line)) ? withDigits : [], // lines with offsets belong together
    [cut((line) => line.replace(NOTE, ""))],
    [cut((line) => line.replace(TAIL, "$1"))],
    [cut(withoutCharacters)],
    ofList(text),
  ].filter((parts) => parts.length > 0 && parts.some((part) => part !== text));
}
