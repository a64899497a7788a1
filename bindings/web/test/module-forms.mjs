// Tests the forms of bytes that the page accepts: each is read correctly and named, or is an error.
import { parseBytes } from "../page/bytes.js";
import { isBytes, mayBeBytes } from "../page/text.js";
import { check, equal, holds } from "./tally.mjs";

const LIST = "a list";
const DECIMAL = "decimal numbers";
const MIXED = "a list of numbers";
const ESCAPES = "a string with escapes";
const STRING = "a string";
const DUMP = "a dump";
const WORDS = "a dump of words of 16 bits, the low byte first";
const CAN = "data of candump";
const ROW = "00 00 00 00 00 00 00 00 00 00 00 00 00 00 00 00";
const ZEROS = "00".repeat(32);
const BINARY = "binary numbers";
const FINAL = " with a final 00";
const OD = "0000000";

const READ = [
  // hex digits
  ["03 0a 0b 02 0c", "hex", "030a0b020c"],
  ["030a0b020c", "hex", "030a0b020c"],
  ["0A,0b 0x00:0c", "hex", "0a0b000c"],
  ["03-0a-0b", "hex", "030a0b"],
  ["\ufeff0a 0b\u200b 00 0c", "hex", "0a0b000c"],
  ["0x030a0b", "hex", "030a0b"],
  ["0x3 0xA", "hex", "030a"],
  ["0x03, 0x0a,", "hex", "030a"],
  ["10 11", "hex", "1011", DECIMAL, "0a0b"],
  ["10", "hex", "10"],
  ["10, 11, 0a", "hex", "10110a"],
  ["10, 11, 00", "hex", "101100"],
  ["[03 0a 0b]", "hex", "030a0b"],
  ["030a  0b02", "hex", "030a0b02"],
  ["030a  0b02\n0c00  0102", "hex", "030a0b020c000102"],
  ["$03 $0A", "hex of an assembler", "030a"],
  ["03h, 0Ah, 0FFh", "hex of an assembler", "030aff"],
  // C and C++
  ["{0x0a, 0x0b, 0x0, 0x0c}", LIST, "0a0b000c"],
  ["{0x0a, 11, 0}", MIXED, "0a0b00"],
  ["{{0x01,0x02},{0x03}}", LIST, "010203"],
  ["{(uint8_t)0x0a}", LIST, "0a"],
  ["{'a', 0}", MIXED, "6100"],
  ["const unsigned char frame[4] = {\n  0x0a, 0x0b, // first\n  0x00, 0x0c, /* last */\n};", LIST, "0a0b000c"],
  ["uint8_t f[2][2] = {{1, 2}, {3, 4}};", DECIMAL, "01020304"],
  ["std::array<uint8_t, 2> f{3, 10};", DECIMAL, "030a"],
  ['"\\x03\\x0a" "\\x0b"', ESCAPES, "030a0b"],
  ['static const char f[] = "\\003\\n"\n    "A";', ESCAPES, "030a41", ESCAPES + FINAL, "030a4100"],
  ['"\\x03\\"\u00e9"', ESCAPES, "0322c3a9"],
  ["\\x03\\x0a\\x0b", ESCAPES, "030a0b"],
  // octal, where it can't be Rust's byte 00 before a digit
  ['"\\01\\2"', ESCAPES, "0102"],
  ['"\\003\\v"', ESCAPES, "030b"],
  ['u8"\\01"', ESCAPES, "01"],
  ['"\\01" "A"', ESCAPES, "0141"],
  ['char f[2] = "\\01A";', ESCAPES, "0141"],
  ['const char *f = "\\012";', ESCAPES, "0a"],
  ["'\\012'", ESCAPES, "0a"],
  ["\\003\\12", ESCAPES, "030a"],
  ['b"\\0\\08\\0A\\\\01"', ESCAPES, "00003800415c3031"],
  ["[0b00000011]", LIST, "03"],
  ["0b1010, 0b1111", BINARY, "0a0f", "hex", "0b10100b1111"],
  ["0b00000011", BINARY, "03", "hex", "0b00000011"],
  ["0b10", "hex", "0b10", BINARY, "02"],
  ["0b 10", "hex", "0b10"],
  ["std::array<uint8_t, 3> a = {1, 2, 3};", DECIMAL, "010203"],
  ["(uint8_t[]){1,2}", DECIMAL, "0102"],
  ["static const uint8_t PROGMEM long_word[] = {1, 2};", DECIMAL, "0102"],
  ["unsigned char f_bin[] = {\n  0x03, 0x0a, 0x0b\n};\nunsigned int f_bin_len = 3;\n", LIST, "030a0b"],
  // a string in an array of C has a 00 at its end, if there is room
  ['char c[] = "hello";', STRING, "68656c6c6f", STRING + FINAL, "68656c6c6f00"],
  ['char c[5] = "hello";', STRING, "68656c6c6f"],
  ['char c[6] = "hello";', STRING, "68656c6c6f00"],
  ['char c[8] = "a\\n";', ESCAPES, "610a000000000000"],
  ['const char *c = "hello";', STRING, "68656c6c6f"],
  // what gdb prints of arrays: p, p/x, p/c
  ["$1 = \"\\003\\n\\v\\002\\f\"", ESCAPES, "030a0b020c", ESCAPES + FINAL, "030a0b020c00"],
  ["$2 = {0x3, 0xa, 0x0 <repeats 3 times>}", LIST, "030a000000"],
  ["$3 = \"\\001'\\\"\", '\\000' <repeats 3 times>", ESCAPES, "012722000000", ESCAPES + FINAL, "01272200000000"],
  ["$4 = {3 '\\003', 10 '\\n', 39 '\\'', -1 '\\377'}", "numbers with a sign", "030a27ff"],
  ["0x4020 <a>:\t3\t10\t-1\n0x4023 <a+3>:\t255", "decimal numbers of gdb", "030affff"],
  // Python
  ["array([3, 10], dtype=uint8)", DECIMAL, "030a"],
  ["np.array([3, 10], dtype=np.uint8)", DECIMAL, "030a"],
  ["array([-1], dtype=int8)", "numbers with a sign", "ff"],
  ["array('B', [3, 10])", DECIMAL, "030a"],
  ["bytearray(b'\\x03\\n\\x0b')", ESCAPES, "030a0b"],
  ["b'\\x03\\nA\\0'", ESCAPES, "030a4100"],
  ["b'hello'", STRING, "68656c6c6f"],
  ["b'a\\nb'", ESCAPES, "610a62"],
  ["data = bytes([3, 10, 11])  # a frame", DECIMAL, "030a0b"],
  ['bytes.fromhex("03 0a")', "hex", "030a"],
  ["base64.b64decode('AwoLAgw=')", "base64", "030a0b020c"],
  // JavaScript and Node
  ["Uint8Array(5) [ 3, 10, 11, 2, 12 ]", DECIMAL, "030a0b020c"],
  ["new Uint8Array([3, 10])", DECIMAL, "030a"],
  ["Uint8Array.of(3, 10)", DECIMAL, "030a"],
  ["<Buffer 03 0a 0b>", "a buffer", "030a0b"],
  ["ArrayBuffer { [Uint8Contents]: <03 0a>, byteLength: 2 }", "a buffer", "030a"],
  ["Buffer.from('030a', 'hex')", "hex", "030a"],
  ["Buffer.from('AwoLAgw=', 'base64');", "base64", "030a0b020c"],
  ['{"type":"Buffer","data":[3,10]}', "a buffer", "030a"],
  ['{"0":3,"1":10}', "a buffer", "030a"],
  ['"\\u00e9\\u{21}"', ESCAPES, "c3a921"],
  // Rust, Go, Java, JSON
  ["[10u8, 11u8]", DECIMAL, "0a0b"],
  ["[0x03u8, 0x0a_u8]", LIST, "030a"],
  ["const A: &'static [u8] = &[1, 2];", DECIMAL, "0102"],
  ["let a: [u8; 3] = [1, 2, 3];", DECIMAL, "010203"],
  ["vec![0x41; 5]", LIST, "4141414141"],
  ["[]byte{0x03, 0x0a}", LIST, "030a"],
  ["new byte[]{3, (byte) 0xab}", MIXED, "03ab"],
  ["[3, 10, -85]", "numbers with a sign", "030aab"],
  ["[10, 11, 0, 12]", DECIMAL, "0a0b000c"],
  // numbers with commas are decimal, whatever digits one of them has
  ["10, 11, 0, 12", DECIMAL, "0a0b000c"],
  ["10, 11, 14, 12", DECIMAL, "0a0b0e0c", "hex", "10111412"],
  ["10,", DECIMAL, "0a", "hex", "10"],
  ["10,11", DECIMAL, "0a0b", "hex", "1011"],
  // base64
  ["AwoLAgw=", "base64", "030a0b020c"],
  ["_-8=", "base64", "ffef"],
  // od
  [`${OD} 003 012 013\n0000003`, "octal numbers of od", "030a0b"],
  [`${OD} 101 110 111\n0000003`, "octal numbers of od", "414849", "decimal numbers of od", "656e6f"],
  [`${OD}   3  10 255   0\n0000004`, "decimal numbers of od", "030aff00"],
  [`${OD}    3   10   -1    0\n0000004`, "numbers with a sign of od", "030aff00"],
  [`${OD} 003  \\n  \\0   A    \n0000005`, "characters of od", "030a004120"],
  [`${OD} ${"000 ".repeat(16).trim()}\n*\n0000040 001\n0000041`, "octal numbers of od", `${ZEROS}01`],
  [`${OD}   0${"   0".repeat(15)}\n*\n0000032   7\n0000033`, "decimal numbers of od", `${ZEROS}07`, "characters of od", `${"30".repeat(32)}37`],
  [`${OD} 03 0a 0b 02  >....<\n0000004`, DUMP, "030a0b02"],
  ["0000 03 0a\n0002 0b 02", DUMP, "030a0b02"],
  // hexdump, xxd, od, Wireshark, gdb, candump
  ["00000000  03 0a 0b 02 0c 00 48 65  6c 6c 6f 00 01 02 03 04  |......Hello.....|\n00000010  05                                                |.|\n00000011\n", DUMP, "030a0b020c0048656c6c6f000102030405"],
  [`00000000  ${ROW}  |................|\n*\n00000020  41  |A|\n00000021`, DUMP, `${ZEROS}41`],
  ["00000000: 030a 0b02 0c00 4865 6c6c 6f00 0102 0304  ......Hello.....\n00000010: 05                                       .\n", DUMP, "030a0b020c0048656c6c6f000102030405"],
  ["00000000: 41 42 43 44 45 46 47 48  AB CD EF", DUMP, "4142434445464748"],
  ["0000000 03 0a 0b 02 0c\n0000005", DUMP, "030a0b020c"],
  [`0000000 ${ROW}\n*\n0000040 01\n0000041`, DUMP, `${ZEROS}01`],
  ["000000 03 0a 0b 02 0c\n000005", DUMP, "030a0b020c"],
  ["0000000 0a03 020b 000c\n0000005", WORDS, "030a0b020c"],
  ["0000   03 0a 0b 02 0c 00 48 65 6c 6c 6f 00 01 02 03 04   ......Hello.....\n0010   05   .", DUMP, "030a0b020c0048656c6c6f000102030405"],
  ["0x20000000:\t0x03\t0x0a", DUMP, "030a"],
  ["0x7ffe0010 <buf>:\t0x03\t0x0a\n0x7ffe0012 <buf+2>:\t0x0b", DUMP, "030a0b"],
  ["  can0  123   [4]  03 0A 0B 02\n  can0  124   [0]\n  can0  124   [1]  00", CAN, "030a0b0200"],
  ["(1436509052.249713) can0 123#030A0B02", CAN, "030a0b02"],
];

/** Texts that have no form, or more than one form, with a word of the error message. */
const WRONG = [
  ["0a 0b\n00 0g", "line 2, column 5"],
  ["0a 1", "01"],
  ["3 10 11", "one digit"],
  ["0x0a, 11", "no 0x"],
  ["0x030a 0x0b02", "order"],
  ["0b000000011", "odd"],
  ["10, 11, 256", "more than 255"],
  ["1011, 1213", "more than 255"],
  ["010, 3", "odd"],
  ["[010]", "octal"],
  ["[256]", "more than 255"],
  ["[-129]", "less than -128"],
  ["{1.5}", "isn't a number"],
  ["{0a, 0b}", "0x"],
  ["[1,, 2]", "nothing"],
  ["[1] [2]", "before"],
  ["[1, 2", "list of bytes"],
  ["uint8_t f[8] = {1, 2};", "8 bytes"],
  ["Uint8Array(3) [1, 2]", "given as 3"],
  ["[3, 10, ... 98 more items]", "left out"],
  ["<Buffer 03 0a ... 5 more bytes>", "left out"],
  ["bytes(5)", "text doesn't have"],
  ["memcpy(a, b, 3)", "isn't a byte"],
  ["f(1, 2)", "arguments"],
  // wider numbers than bytes
  ["uint16_t a[2] = {1, 2};", "“uint16_t” have more than 8 bits"],
  ["let a: [u16; 2] = [1, 2];", "“u16”"],
  ["const a: Uint16Array = [1, 2]", "“Uint16Array”"],
  ["new Uint32Array([1,2,3])", "“Uint32Array”"],
  ["Float64Array(2) [ 1, 2 ]", "“Float64Array”"],
  ["[]uint16{1,2}", "“uint16”"],
  ["short[] a = {1, 2};", "“short”"],
  ["new char[] {1, 2}", "“char[]”"],
  ["unsigned a[] = {1, 2};", "“unsigned”"],
  ["static const int a[] = {1, 2};", "“int”"],
  ["std::vector<int> a = {1, 2};", "“int”"],
  ["[1u16, 2]", "“u16”"],
  ["[1 as i32]", "“i32”"],
  ["{(long)1, 2}", "“long”"],
  ["array([3, 10])", "dtype=uint8"],
  ["array([3, 10], dtype=int16)", "“int16”"],
  ["array('H', [3, 10])", "“H”"],
  // lengths that don't fit
  ["unsigned char f_bin[] = {\n  0x03\n};\nunsigned int f_bin_len = 3;\n", "given as 3"],
  ['char c[3] = "hello";', "for 3 bytes, but there are 5"],
  ["std::array<uint8_t, 3> a = {1, 2};", "for 3 bytes, but there are 2"],
  ["ArrayBuffer { [Uint8Contents]: <03 0a>, byteLength: 3 }", "given as 3, but there are 2 bytes"],
  ["ArrayBuffer { [Uint8Contents]: <03 ... 5 more bytes>, byteLength: 6 }", "left out"],
  ["{1 <repeats 9999999 times>}", "too many"],
  [`${OD} 003 012 013\n0000004`, ""],
  ["0x4020:\t3\t10\n0x4024:\t4", "don't fit"],
  ["0x4020:\t300", "isn't a byte"],
  ["f({0x01})(2)", "before"],
  ["[0x03, 0x0a].to_vec()", "list of bytes"],
  ["b'\\x0'", "escape"],
  ['b"\\01"', "“\\01” is an octal escape"],
  ['"A\\0123"', "“\\012” is an octal escape"],
  ['let f = b"\\x03\\012";', "octal"],
  ['const F: &[u8] = b"\\01";', "octal"],
  ['[b"\\x01", b"\\01"]', "octal"],
  ["\\x03\\012", "octal"],
  ['"\\x01a"', "C reads all"],
  ["b'\\u00e9'", "escape"],
  ['"03 0a"', "quotes"],
  ['"AwoLAgw="', "quotes"],
  ['{"type":"Buffer","data":[300]}', "bytes"],
  ["<img src=x onerror=alert(1)>", ""],
  ["0x20000000:\t0x03040506", "order"],
  ["00000000: 0b0a0302 0c", "order"],
  ["00000010  03 0a", "offset"],
  ["0a0b  0c 0d", "offset"],
  ["00000000  03 0a 0b 02 0c 00 48 65  6c 6c 6f", "Line 1"],
  [`00000000: ${ROW}\n00000020: 41`, "offsets"],
  [`00000000: ${ROW}\nwhat`, "Line 2"],
  [`0000000 ${"0000 ".repeat(8).trim()}\n*\n0000040`, "two bases"],
  ["can0  123   [4]  03 0A 0B", "candump"],
];

await check("the page reads bytes in any form, and says which", () => {
  for (const [text, as, wanted, other, otherBytes] of READ) {
    const { bytes, as: found, error, other: second } = parseBytes(text);
    equal([bytes && Buffer.from(bytes).toString("hex"), found, error, second], [wanted, as, undefined, other], JSON.stringify(text));
    if (other === undefined) continue;
    const switched = parseBytes(text, other);
    equal([Buffer.from(switched.bytes).toString("hex"), switched.as, switched.other], [otherBytes, other, as], `${JSON.stringify(text)} the other way`);
  }
});
await check("numbers that are wrong one way are offered the other way", () => {
  for (const [text, as, wanted] of [["1011, 1213", "hex", "10111213"], ["3 10 11", "decimal numbers", "030a0b"]]) {
    const { error, other } = parseBytes(text);
    equal([error !== undefined, other], [true, as], text);
    equal(Buffer.from(parseBytes(text, as).bytes).toString("hex"), wanted, `${text} so`);
  }
});
await check("what is typed number by number is read the same way from the first comma on", () => {
  const whole = "10, 11, 14, 0, 112,";
  for (let end = 3; end <= whole.length; end++) {
    const numbers = whole.slice(0, end).split(",").map((word) => word.trim()).filter((word) => word !== "").map(Number);
    equal([...parseBytes(whole.slice(0, end)).bytes], numbers, whole.slice(0, end));
  }
});
await check("text that may be bytes is known, and words aren't taken for it", () => {
  const may = (text) => {
    const { bytes, as } = parseBytes(text);
    return bytes !== undefined && mayBeBytes(text, as, bytes.length);
  };
  equal(["030a0b020c", "03 0a", "10, 11, 0, 12", "AwoLAgw=", "b'hello'"].map(may), [true, true, true, true, true], "bytes");
  equal(["Hello World", "a", "10", "Test", "Password", "temp=21.5", "two words", "", "Hello\u2205World"].map(may).includes(true), false, "text");
});
await check("long and hostile texts are read or rejected in time", () => {
  const many = 1 << 16;
  for (const text of ["00 ff 01 02 ".repeat(many), "0x00, 0xff, ".repeat(many), `[${"1,".repeat(many)}]`, `b'${"\\x01".repeat(many)}'`, `r"${"x".repeat(many)}"`, "[".repeat(many), "[".repeat(many) + "]".repeat(many), "(1)".repeat(many), '"a" '.repeat(many),
    "0000000: 00\n".repeat(many), "abcdefghij".repeat(many), `x${" ".repeat(59_000)}a|`, "x\n".repeat(29_000), "a ".repeat(29_000), "RX: 03\n".repeat(8_000), "\n".repeat(59_000), "[1:".repeat(19_000), "\\x00".repeat(many), `${"a".repeat(many)}"`, `${"a.".repeat(many)}'`, `${"a::b".repeat(many)}["`, `${"[]".repeat(many)}"`, `${"[a;".repeat(many)}"`, `x<${"a,".repeat(many)}"`, `x<a>${" ".repeat(many)}"`, `x${" ".repeat(many)}"`, `x<${">".repeat(many)}"`, `${"a = ".repeat(many)}{`, `${"a".repeat(many)} * = {1}`, `${"a[1]".repeat(many)}* = "a"`, `[${"a ".repeat(many)}`, `[${"(a)".repeat(many)}1]`, `03 0a 0b${" ".repeat(many)};`, `03 0a 0b${" ".repeat(many)}x`, "a ".repeat(many) + "{", "a:".repeat(many), `${"[".repeat(many)}=`, `(${"a ".repeat(many)}`, `$1 = {${"1 '\\001', ".repeat(many)}}`, `0000000${"   1".repeat(many)}`, `${"1,".repeat(many)}`, "/*".repeat(many), "'".repeat(many), "{'a',".repeat(many), "<".repeat(many), "0".repeat(many), " ".repeat(many), "can0 123 [1] 00\n".repeat(many >> 3)]) {
    const begun = process.cpuUsage();
    const { bytes, error, as } = parseBytes(text);
    isBytes(text, as);
    const { user } = process.cpuUsage(begun);
    holds(bytes || error, `${text.slice(0, 12)} gives neither`);
    holds(user < 1_000_000, `${text.slice(0, 12)} took ${Math.round(user / 1000)} ms of processor time`);
  }
});
await check("an array of a program costs less than 3 microseconds a byte", () => {
  const text = `[${"1, 0x2f, ".repeat(1 << 17)}]`;
  const takes = [0, 1, 2].map(() => {
    const begun = process.cpuUsage();
    equal(parseBytes(text).bytes.length, 1 << 18, "its bytes");
    return process.cpuUsage(begun).user;
  });
  holds(Math.min(...takes) < 3 << 18, `it took ${Math.round(Math.min(...takes) / 1000)} ms`);
});
await check("what has no form, or more than one, is an error that says why", () => {
  for (const [text, words] of WRONG) {
    const { bytes, error } = parseBytes(text);
    holds(!bytes && error?.includes(words), `${JSON.stringify(text)} gives ${bytes ?? error}`);
  }
});
