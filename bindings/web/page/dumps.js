// Reads bytes as tools print them. Each line of hexdump, xxd, od, gdb and Wireshark has an offset and the bytes at this offset. The
// frames that candump prints are read too.

const LONGEST = 16 << 20;
const LINE = /^\s*(?:0x)?([0-9a-f]{4,16})(?:[ \t]*<[^>]*>)?(:?)(?:([ \t]+)(.*))?$/i;
const GROUP = /^(?:0x)?(?:[0-9a-f]{2}){1,8}$/i;

/** Returns a line as `{digits, colon, gap, groups, isPiped, isCut}`, or `{isStar}` if lines are left out here, or null. */
function rowOf(line) {
  if (line === "*") return { isStar: true };
  const [, digits, colon, gap = "", rest = ""] = line.match(LINE) ?? [];
  if (digits === undefined) return null;
  const piped = rest.match(/^(.*?)\s+(?:\|.*\||>.*<)$/); // the characters, as hexdump -C and od -z print them
  const [first, ...others] = piped ? [piped[1].replace(/ {2}/g, " ")] : rest.replaceAll("\t", " ").split(/ {2,}/);
  const groups = first === "" ? [] : first.split(/[ -]/);
  if (!groups.every((group) => GROUP.test(group))) return null;
  // after two spaces there may be characters, or the second half of a line whose characters were cut off
  return { digits, colon, gap, groups, isPiped: piped !== null, isCut: colon === "" && /^[0-9a-f]{2}( [0-9a-f]{2})*$/i.test(others[0] ?? "") };
}

/** Returns a line of hexdump -x or -d, with wide gaps and words of 16 bits, as hexdump prints it without an option. */
function narrow(line) {
  if (/^[0-9a-f]{7}(?: {4}[0-9a-f]{4})+$/.test(line)) return line.replace(/ {4}/g, " ");
  if (/^[0-9a-f]{7}(?: {3}[0-6]\d{4})+$/.test(line)) return line.replace(/ {3}(\d{5})/g, (all, digits) => ` ${Number(digits).toString(16).padStart(4, "0")}`);
  return line;
}

/** Reads lines that begin with offsets. Returns undefined for another text. */
export function parseDump(text) {
  const lines = text.split("\n").map((line) => narrow(line.trimEnd())).filter((line) => line !== "");
  const first = lines.length > 0 ? rowOf(lines[0]) : null;
  if (!first || first.isStar) return undefined;
  const rows = lines.map(rowOf);
  const isMarked = (first.colon !== "" && first.groups.length > 0) || first.isPiped || (first.digits.length === 7 && first.gap !== "");
  const isWide = first.gap.length > 1 && first.groups[0]?.length === 2;
  const isZero = /^0+$/.test(first.digits);
  if (!isMarked && rows.length === 1) {
    if (!isWide) return undefined;
    if (!isZero) return { error: `“${first.digits}” could be an offset or bytes: leave it out, or leave out the spaces after it.` };
  }
  if (!isMarked && rows.length > 1 && !(rows.every((row) => row) && (isWide || isZero) && unrolled(rows, 16, bytesOf))) return undefined;
  const bad = rows.findIndex((row) => row === null || row.isCut);
  if (bad >= 0) return { error: `Line ${bad + 1} can't be read as a line of a dump: “${lines[bad].slice(0, 60)}”.` };
  return readRows(rows.filter((row) => row));
}

function readRows(rows) {
  const groups = rows.flatMap((row) => row.groups ?? []);
  const isShort = rows[0].digits.length === 7; // od and hexdump
  const isGdb = groups.some((group) => /^0x/i.test(group));
  const areWords = isShort && groups.every((group) => group.length === 4);
  const longest = groups.reduce((most, group) => Math.max(most, group.length), 0);
  if (longest > (isGdb || areWords || !isShort ? 4 : 2)) return { error: `“${groups.find((group) => group.length === longest)}” has several bytes, whose order isn't known: print each byte separately.` };
  const bases = isShort ? (areWords ? [16, 8] : [8, 10]) : [16];
  const found = bases.map((base) => unrolled(rows, base, areWords ? wordsOf : bytesOf)).filter((bytes) => bytes);
  if (found.length === 0) return { error: "The offsets don't fit the bytes: bytes are missing, or there are too many." };
  if (found.some((bytes) => bytes.length !== found[0].length)) return { error: "The lines that “*” leaves out aren't known: the offsets fit two bases. Print all of them (hexdump -v, od -v)." };
  return { bytes: Uint8Array.from(found[0]), as: areWords ? "a dump of words of 16 bits, the low byte first" : "a dump" };
}

const bytesOf = (groups) => groups.flatMap((group) => group.replace(/^0x/i, "").match(/../g).map((pair) => parseInt(pair, 16)));
const wordsOf = (groups) => groups.flatMap((group) => [parseInt(group.slice(2), 16), parseInt(group.slice(0, 2), 16)]);

/** Returns the bytes of all lines, with the bytes that a star stands for, or null if an offset doesn't fit. */
export function unrolled(rows, base, read) {
  const place = ({ digits }) => (base === 16 || !/[a-f89]/i.test(base === 8 ? digits : digits.replace(/[89]/g, "0")) ? parseInt(digits, base) : NaN);
  const start = place(rows[0]);
  const bytes = [];
  let last = [];
  let isStarred = false;
  for (const row of rows) {
    if (row.isStar) {
      if (last.length === 0 || isStarred) return null;
      isStarred = true;
      continue;
    }
    const at = place(row) - start;
    if (isStarred && (!(at > bytes.length) || at > LONGEST || (at - bytes.length) % last.length !== 0)) return null;
    while (isStarred && bytes.length < at) bytes.push(...last);
    isStarred = false;
    if (at === bytes.length - 1 && row.groups.length === 0 && read === wordsOf) bytes.pop(); // the last word had one byte
    if (at !== bytes.length) return null;
    last = read(row.groups);
    bytes.push(...last);
  }
  return isStarred ? null : bytes;
}

const CAN = /^\s*(?:\([\d.-]+\)\s+)?\S+\s+[0-9a-f]{3,8}\s+\[(\d+)\]((?:\s+[0-9a-f]{2})*)(?:\s+'.*')?\s*$/i;
const CAN_LOG = /^\([\d.]+\)\s+\S+\s+[0-9a-f]{3,8}#(?:#[0-9a-f])?((?:[0-9a-f]{2})*)(?:\s+[RT])?\s*$/i;

/** Returns the data of the frames that candump prints or logs, one after another. */
export function parseCan(text) {
  const lines = text.split("\n").filter((line) => line.trim() !== "");
  if (!lines.some((line) => CAN.test(line) || CAN_LOG.test(line))) return undefined;
  const bytes = [];
  for (const [at, line] of lines.entries()) {
    const [, length, pairs] = line.match(CAN) ?? [];
    const data = (pairs ?? line.match(CAN_LOG)?.[1])?.match(/[0-9a-f]{2}/gi) ?? (line.match(CAN) || line.match(CAN_LOG) ? [] : null);
    if (data === null || (length !== undefined && Number(length) !== data.length)) return { error: `Line ${at + 1} isn't a complete frame of candump: “${line.trim().slice(0, 60)}”.` };
    bytes.push(...data.map((pair) => parseInt(pair, 16)));
  }
  return { bytes: Uint8Array.from(bytes), as: "data of candump" };
}
