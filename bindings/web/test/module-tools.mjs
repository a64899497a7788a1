// Tests that the page reads what tools print: the texts are made by the tools that are here, and for the others in the form that they
// print. Each text is read, or its bytes are offered; none is read as other bytes.
import { execFileSync } from "node:child_process";
import { inspect } from "node:util";
import { parseBytes } from "../page/bytes.js";
import { randomBytes } from "./module-setup.mjs";
import { check, equal, holds } from "./tally.mjs";

const SAMPLES = [
  Buffer.from("030a0b020c00", "hex"),
  Buffer.from("\x06Hello\x00", "latin1"),
  Buffer.from("0101010100", "hex"),
  Buffer.from("fffe807f00ff41ab", "hex"),
  Buffer.concat([Buffer.from([21]), Buffer.from("temp=21.5, hum=40 |%|"), Buffer.from([0])]),
  Buffer.from(randomBytes(40, 0.1, 5)),
];

const hexes = (bytes) => [...bytes].map((byte) => byte.toString(16).padStart(2, "0"));
const spaced = (bytes) => hexes(bytes).join(" ");
const upper = (bytes) => spaced(bytes).toUpperCase();
const prefixed = (bytes) => hexes(bytes).map((pair) => `0x${pair}`).join(", ");
const decimals = (bytes, between = ", ") => [...bytes].join(between);
const signed = (bytes, between = ", ") => [...Int8Array.from(bytes)].join(between);
const shown = (bytes) => [...bytes].map((byte) => (byte >= 32 && byte < 127 ? String.fromCharCode(byte) : ".")).join("");
const escaped = (bytes) => hexes(bytes).map((pair) => `\\x${pair}`).join("");
const octals = (bytes) => [...bytes].map((byte) => `\\${byte.toString(8).padStart(3, "0")}`).join("");
const pretty = (words) => `[\n${words.map((word) => `    ${word},\n`).join("")}]`;
const rows = (bytes, width) => Array.from({ length: Math.ceil(bytes.length / width) }, (_, i) => [i * width, bytes.subarray(i * width, (i + 1) * width)]);
const numpy = (bytes) => `[${rows(bytes, 18).map(([, row]) => [...row].map((byte) => String(byte).padStart(3)).join(" ")).join("\n ")}]`;
const esp = (bytes) => rows(bytes, 16).map(([at, row]) => `I (313) example: 0x${(0x3ffb4280 + at).toString(16)}   ${spaced(row.subarray(0, 8))}${row.length > 8 ? `  ${spaced(row.subarray(8))}` : ""}`.padEnd(80) + `|${shown(row)}|`).join("\n");
const zephyr = (bytes) => ["[00:00:00.010,000] <inf> main: frame", ...rows(bytes, 16).map(([, row]) => " ".repeat(37) + `${spaced(row.subarray(0, 8))} ${row.length > 8 ? ` ${spaced(row.subarray(8))}` : ""}`.padEnd(49) + `|${shown(row.subarray(0, 8))}${row.length > 8 ? ` ${shown(row.subarray(8))}` : ""}`)].join("\n");
const kernel = (bytes) => rows(bytes, 16).map(([at, row]) => `[   12.345678] frame: ${at.toString(16).padStart(8, "0")}: ${spaced(row).padEnd(47)}  ${shown(row)}`).join("\n");
const gdb = (bytes) => rows(bytes, 8).map(([at, row]) => `0x${(0x20000000 + at).toString(16)} <frame${at ? `+${at}` : ""}>:\t${hexes(row).map((pair) => `0x${pair}`).join("\t")}`).join("\n");
const wireshark = (bytes) => rows(bytes, 16).map(([at, row]) => `${at.toString(16).padStart(4, "0")}   ${spaced(row).padEnd(47)}   ${shown(row)}`).join("\n");
const base64 = (bytes) => Buffer.from(bytes).toString("base64");

/** What tools print of bytes that have a length, by the name of the tool. */
const FORMS = {
  "Rust {:02x?}": (bytes) => `[${hexes(bytes).join(", ")}]`,
  "Rust {:#04x?}": (bytes) => pretty(hexes(bytes).map((pair) => `0x${pair}`)),
  "Rust {:?}": (bytes) => `[${decimals(bytes)}]`,
  "Rust {:#?}": (bytes) => pretty([...bytes]),
  "Rust dbg!": (bytes) => `[src/main.rs:4:5] &frame = ${pretty([...bytes])}`,
  "Rust dbg! of a struct": (bytes) => `[src/main.rs:4:5] frame = Frame {\n    data: ${pretty([...bytes])},\n}`,
  "Rust struct": (bytes) => `Frame { data: [${decimals(bytes)}] }`,
  "Rust Ok": (bytes) => `Ok([${decimals(bytes)}])`,
  "Rust assert_eq!": (bytes) => `assertion \`left == right\` failed\n  left: [${decimals(bytes)}]\n right: [1, 2, 3]`,
  "Go %v": (bytes) => `[${decimals(bytes, " ")}]`,
  "Go %#v": (bytes) => `[]byte{${[...bytes].map((byte) => `0x${byte.toString(16)}`).join(", ")}}`,
  "Go % x": (bytes) => spaced(bytes),
  "Go log %v": (bytes) => `2026/12/01 10:00:00 frame: [${decimals(bytes, " ")}]`,
  "numpy print": numpy,
  "numpy repr": (bytes) => `array([${decimals(bytes)}], dtype=uint8)`,
  "Java": (bytes) => `[${signed(bytes)}]`,
  "Kotlin byteArrayOf": (bytes) => `byteArrayOf(${signed(bytes)})`,
  "Kotlin ubyteArrayOf": (bytes) => `ubyteArrayOf(${[...bytes].map((byte) => `${byte}u`).join(", ")})`,
  "Swift": (bytes) => `let frame: [UInt8] = [${prefixed(bytes)}]`,
  "C++ vector": (bytes) => `std::vector<uint8_t> frame{${prefixed(bytes)}};`,
  "C compound literal": (bytes) => `(const unsigned char[]){${decimals(bytes)}}`,
  "C array": (bytes) => `static const uint8_t frame[${bytes.length}] = {${prefixed(bytes)}};`,
  "C# ": (bytes) => `new byte[] { ${prefixed(bytes)} }`,
  "C string": (bytes) => `char frame[${bytes.length}] = "${octals(bytes)}";`,
  "BitConverter": (bytes) => upper(bytes).replaceAll(" ", "-"),
  "Python hex strings": (bytes) => `[${[...bytes].map((byte) => `'0x${byte.toString(16)}'`).join(", ")}]`,
  "Python joined": (bytes) => `b'${escaped(bytes.subarray(0, 3))}' + b'${escaped(bytes.subarray(3))}'`,
  "Python logging": (bytes) => `DEBUG:root:received b'${escaped(bytes)}'`,
  "Python label": (bytes) => `frame = b'${escaped(bytes)}'`,
  "Node Buffer object": (bytes) => `{ type: 'Buffer', data: [ ${decimals(bytes)} ] }`,
  "Node Buffer JSON": (bytes) => JSON.stringify(bytes),
  "Chrome Uint8Array": (bytes) => `Uint8Array(${bytes.length}) [${decimals(bytes)}, buffer: ArrayBuffer(${bytes.length}), byteLength: ${bytes.length}, byteOffset: 0, length: ${bytes.length}, Symbol(Symbol.toStringTag): 'Uint8Array']`,
  "a JSON object": (bytes) => JSON.stringify({ time: "10:00:00", data: bytes.toString("hex") }),
  "a log line with a stamp": (bytes) => `[10:00:00.123] RX: ${upper(bytes)}`,
  "a log line with a date": (bytes) => `2026-12-01T10:00:00.123Z rx ${spaced(bytes)}`,
  "a label": (bytes) => `RX: ${spaced(bytes)}`,
  "a label with a length": (bytes) => `RX (${bytes.length} bytes): ${spaced(bytes)}`,
  "an arrow": (bytes) => `10:00:00 -> ${spaced(bytes)}`,
  "syslog": (bytes) => `Dec  1 10:00:00 host prog[123]: frame ${spaced(bytes)}`,
  "a comment": (bytes) => `${spaced(bytes)} // note`,
  "a word behind": (bytes) => `RX: ${spaced(bytes)} CRC ok`,
  "a number behind": (bytes) => `${spaced(bytes)} (${bytes.length} bytes)`,
  "lines of a log": (bytes) => `10:00:00.1 RX: ${spaced(bytes.subarray(0, 3))}\n10:00:00.2 RX: ${spaced(bytes.subarray(3))}`,
  "Arduino": (bytes) => `Received: ${prefixed(bytes)}`,
  "ESP-IDF buffer_hex": (bytes) => `I (313) example: ${spaced(bytes)}`,
  "ESP-IDF buffer_hexdump": esp,
  "Zephyr LOG_HEXDUMP": zephyr,
  "Linux print_hex_dump": kernel,
  "Saleae": (bytes) => `name,type,start_time,duration,data\n${hexes(bytes).map((pair, i) => `"Async Serial","data",0.00${i},8.68e-05,0x${pair.toUpperCase()}`).join("\n")}`,
  "Saleae Logic 1": (bytes) => `Time [s],Value,Parity Error,Framing Error\n${hexes(bytes).map((pair, i) => `0.00${i}000000000,0x${pair.toUpperCase()},,`).join("\n")}`,
  "PulseView": (bytes) => hexes(bytes).map((pair, i) => `${100 * i + 100}-${100 * i + 180} UART: RX data: ${pair.toUpperCase()}`).join("\n"),
  "cobs_watch": (bytes) => `message ${bytes.length} ${bytes.toString("hex")}`,
  "cobs_watch --time start": (bytes) => `2.006 message ${bytes.length} ${bytes.toString("hex")}\n2.100 broken 1`,
  "cobs_watch --as json": (bytes) => `{"frame":1,"kind":"message","length":${bytes.length},"hex":"${bytes.toString("hex")}"}\n{"frame":2,"kind":"broken","length":1}`,
  "cobs_watch --as dump": (bytes) => `message ${bytes.length}\n${run("hexdump", ["-C"], bytes).split("\n").slice(0, -1).filter((line) => line.length > 9).join("\n")}`,
  "tshark -x": wireshark,
  "tshark -T fields -e data": (bytes) => bytes.toString("hex"),
  "tshark -V": (bytes) => `    Data: ${bytes.toString("hex")}`,
  "Wireshark escaped string": (bytes) => rows(bytes, 16).map(([, row]) => `"${escaped(row)}"`).join(" \\\n"),
  "gdb x/xb": gdb,
  "gdb p/x": (bytes) => `$1 = {${[...bytes].map((byte) => `0x${byte.toString(16)}`).join(", ")}}`,
  "candump": (bytes) => rows(bytes, 8).map(([, row]) => `  can0  123   [${row.length}]  ${upper(row)}`).join("\n"),
  "a Markdown fence": (bytes) => `\`\`\`text\n${spaced(bytes)}\n\`\`\``,
  "a Markdown word": (bytes) => `\`${spaced(bytes)}\``,
  "base64 in a call": (bytes) => `base64.b64decode("${base64(bytes)}")`,
  "Node inspect": (bytes) => inspect(bytes, { maxArrayLength: 100 }),
  "Node inspect of a Uint8Array": (bytes) => inspect(Uint8Array.from(bytes), { maxArrayLength: 100 }),
};

const REPR = "import sys; d = sys.stdin.buffer.read(); ";
const TOOLS = [
  ...["-C", "-b", "-c", "-d", "-x", ""].map((option) => ["hexdump", option === "" ? [] : [option]]),
  ...[[], ["-p"], ["-i"], ["-u"], ["-c8"]].map((options) => ["xxd", options]),
  ...["-tx1", "-tu1", "-td1", "-b", "-c", "-tx1z"].map((option) => ["od", [option]]), ["od", ["-An", "-tx1"]],
  ...["print(d)", "print(bytearray(d))", "print(list(d))", "print(d.hex(' '))", "print(tuple(d))"].map((code) => ["python3", ["-c", REPR + code]]),
];

function run(command, options, bytes) {
  return execFileSync(command, options, { input: bytes, encoding: "utf8" });
}

/** Returns how the page takes a text: "read", "offered", "refused", or "misread". */
function takenAs(text, wanted) {
  const { bytes, other } = parseBytes(text);
  const isWanted = (found) => found !== undefined && Buffer.compare(Buffer.from(found), wanted) === 0;
  if (bytes) return isWanted(bytes) ? "read" : "misread";
  return other === undefined ? "refused" : isWanted(parseBytes(text, other).bytes) ? "offered" : "misread";
}

await check("what tools print of bytes is read or offered, and none of it is misread", () => {
  const faults = [];
  const counts = { read: 0, offered: 0, refused: 0, misread: 0 };
  const take = (name, text, bytes) => {
    const how = takenAs(text, bytes);
    counts[how]++;
    if (how !== "read" && how !== "offered") faults.push(`${name} is ${how}: ${JSON.stringify(text.slice(0, 200))}`);
  };
  for (const bytes of SAMPLES) {
    for (const [name, form] of Object.entries(FORMS)) take(name, form(bytes), bytes);
    for (const [command, options] of TOOLS) {
      let text;
      try {
        text = run(command, options, bytes);
      } catch (error) {
        if (error.code === "ENOENT") continue; // the tool isn't here
        throw error;
      }
      take([command, ...options].join(" "), text, bytes);
    }
  }
  if (process.env.VERBOSE) console.log(faults.join("\n"), counts);
  equal(faults, [], "what is wrong");
  holds(counts.read + counts.offered >= 350, `350 texts: ${counts.read} are read, ${counts.offered} offered`);
});
await check("bytes aren't offered where some are left out, or where their order or number isn't known", () => {
  const texts = ["uint16_t a[2] = {1, 2};", "uint8_t f[8] = {1, 2};", "const a: Uint16Array = [1, 2]", "Uint8Array(3) [1, 2]", "[3, 10, ... 98 more items]", "frame: [3, 10, ...]", "array([3, 10])", "array('H', [3, 10])", "RX: uint16_t [1, 2]",
    "0x20000000:\t0x03040506", "addr 0x20000000: 03040506", "00000000: 0b0a0302 0c", "got [1, 2] and [3]", "hello 12 world", "RX: 03 0a ...", "message 4 0a0b00", `I (313) example: 00000000: ${"00 ".repeat(16)}\nI (313) example: 00000020: 41`];
  for (const text of texts) {
    const { bytes, other } = parseBytes(text);
    equal([bytes, other], [undefined, undefined], text);
  }
});
await check("the page says how many bytes it would take, and takes them only if they are wanted", () => {
  const text = "RX: 03 0a 0b 02 0c 00 07 08";
  const { error, other } = parseBytes(text);
  equal([error !== undefined, other], [true, "the bytes in it (8: 03 0a 0b 02 0c 00 …)"], text);
  const { bytes, as } = parseBytes(text, other);
  equal([Buffer.from(bytes).toString("hex"), as], ["030a0b020c000708", other], "what is wanted");
  equal(parseBytes(`${text} 09`, other).bytes, undefined, "another text, of which nobody wanted it");
});
