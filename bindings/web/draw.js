// Draws pictures of frames, as SVG text. The page and figures.mjs draw only with this module. It needs no DOM.
//
// A picture is a row of cells, one for each byte of the frame. Above each cell is the byte of the message that corresponds to the
// cell. For a data byte, this is the byte itself (XORed with the sentinel, which changes nothing for the sentinel 0). For a code, it
// is a zero. Above the first code, and above a code after a full block, there is no byte. Below the cells, an arc leads from each
// code to the next code.

export const CELL = 32;          // width of a cell, in pixels
export const ROW_HEIGHT = 100;   // height of a row with its arcs and a margin
const TOP = 30;                  // where the cells of a row begin
const HEIGHT = 28;               // height of a cell
const DEPTH = 17;                // how far an arc hangs below the cells

/** Returns the style of the pictures. `root` is the selector of the element that defines the colours. */
export function style(root) {
  return `${root}{--paper:#ffffff;--ink:#1b2330;--quiet:#5b6675;--line:#7d8997;--data:#eef2f7;--code:#1f5fbf;--on-code:#ffffff;--full:#7a3bc9;--zero:#b04a00;--bad:#b3261e}
@media (prefers-color-scheme:dark){${root}{--paper:#12161c;--ink:#e6eaf0;--quiet:#a3afbf;--line:#6b7888;--data:#1f2833;--code:#7fb1ff;--on-code:#0d1117;--full:#c7a4ff;--zero:#ffb070;--bad:#ff938a}}
${root} text{font:14px ui-monospace,"DejaVu Sans Mono",Menlo,Consolas,monospace;fill:var(--ink);text-anchor:middle}
${root} .paper{fill:var(--paper)}
${root} .data{fill:var(--data)}
${root} .code{fill:var(--code)}${root} .code.full{fill:var(--full)}${root} .code.bad{fill:var(--bad)}
${root} text.on{fill:var(--on-code);font-weight:700}
${root} text.over{fill:var(--quiet);font-size:13px}
${root} text.zero{fill:var(--zero);font-weight:700}
${root} text.note,${root} text.at{fill:var(--quiet);font-size:11px}
${root} text.label{font:13px system-ui,"DejaVu Sans",sans-serif;text-anchor:end;fill:var(--quiet)}
${root} text.title{font:13px system-ui,"DejaVu Sans",sans-serif;text-anchor:start;fill:var(--ink)}
${root} .edge{fill:none;stroke:var(--line)}${root} .edge.full{stroke:var(--full);stroke-width:2}
${root} .edge.bad{stroke:var(--bad);stroke-dasharray:4 3;stroke-width:1.5}
${root} .ring{fill:none;stroke:var(--zero)}${root} .stem{stroke:var(--zero)}
${root} .arc{fill:none;stroke:var(--code);stroke-width:1.5}${root} .arc.full{stroke:var(--full);stroke-width:2}
${root} .arc.bad{stroke:var(--bad);stroke-dasharray:4 3}
${root} .tip{fill:var(--code)}${root} .tip.full{fill:var(--full)}
${root} .axis{stroke:var(--line);fill:none}${root} .most{stroke:var(--code);stroke-width:2;fill:none}${root} .here{fill:var(--zero)}
${root} .end{fill:none;stroke:var(--line);stroke-dasharray:2 3}`;
}

/** Returns a byte as two hexadecimal digits. */
export const hex = (byte) => byte.toString(16).padStart(2, "0");

/** Returns the indices of the codes of a piece: the first byte, and each byte right after a block. */
export function codePlaces(piece, sentinel = 0) {
  const places = new Uint32Array(piece.length);
  let count = 0;
  for (let at = 0; at < piece.length; at += (piece[at] ^ sentinel) || 1) places[count++] = at;
  return places.slice(0, count);
}

/** Returns the index in `places` of the last place at or before `at`. `places` is in ascending order, and begins with 0. */
export function partOf(places, at) {
  let low = 0;
  let high = places.length;
  while (high - low > 1) {
    const middle = (low + high) >> 1;
    if (places[middle] <= at) low = middle;
    else high = middle;
  }
  return low;
}

/** Returns a printable ASCII byte as its character, and any other byte as digits. */
const sign = (byte) => (byte > 32 && byte < 127 ? String.fromCharCode(byte) : hex(byte));

const counted = (number, noun) => `${number} ${noun}${number === 1 ? "" : "s"}`;
const escaped = (text) => text.replace(/[&<>"]/g, (c) => ({ "&": "&amp;", "<": "&lt;", ">": "&gt;", '"': "&quot;" })[c]);

/** Returns the properties of one block of a piece that the drawing needs. */
function partAt(piece, places, number, sentinel) {
  const at = places[number];
  const code = piece[at] ^ sentinel;
  return { at, code, end: at + code, full: code === 255, bad: at + code > piece.length };
}

/** Returns the text above a code: the zero of the message, nothing at the front, and a note after a full block. */
function overCode(piece, places, number, sentinel) {
  if (number === 0) return { text: "", kind: "over" };
  const before = partAt(piece, places, number - 1, sentinel);
  return before.full ? { text: "no 0", kind: "note" } : { text: "0", kind: "zero" };
}

/**
 * Returns the cells and arcs of the bytes from `from` up to `to` of a piece. `options.show` returns the text for a byte of the frame,
 * and `options.showOver` the text for a byte of the message.
 */
export function cellsOf(piece, places, from, to, options = {}) {
  const { sentinel = 0, show = hex, showOver = sign } = options;
  const cells = [];
  const arcs = [];
  let number = partOf(places, from);
  for (let at = from; at < to; at++) {
    if (number + 1 < places.length && places[number + 1] === at) number++;
    const part = partAt(piece, places, number, sentinel);
    const isCode = part.at === at;
    cells.push({
      text: show(piece[at]),
      isCode,
      full: part.full,
      bad: part.bad,
      first: isCode,
      last: at + 1 === Math.min(part.end, piece.length),
      over: isCode ? overCode(piece, places, number, sentinel) : { text: showOver(piece[at] ^ sentinel), kind: "over" },
    });
    if (isCode || at === from) {
      const inside = part.end < to || (part.end === to && part.end === piece.length);
      arcs.push({
        at: part.at,
        from: isCode ? at - from : null,
        to: inside ? part.end - from : part.bad && piece.length <= to ? piece.length - from : null,
        full: part.full,
        bad: part.bad,
        note: part.full ? "full: 255" : `${part.code}`,
      });
    }
  }
  return { cells, arcs };
}

/**
 * Returns the cells and arcs from the byte `from` of a piece on, as they are at a step of the encoder or the decoder. `stage` has:
 * - `frame`: how many bytes of the piece are shown, from the first one on;
 * - `over`: the bytes of the message above the first `over` cells are shown;
 * - `arcs`: the codes before this index have their arcs;
 * - `open` and `count`: the index of the code that is still counted, and its value so far;
 * - `seen`: the zeros of the message that have been read are above this index or before it;
 * - `now`: the index of the cell whose byte is read, and `isOver`: whether that byte is one of the message;
 * - `fresh`: the index of the code that has just got its arc;
 * - `isPlain`: whether the bytes are shown before they are XORed with the sentinel.
 */
function staged({ cells, arcs }, from, stage) {
  const isOver = (at) => at < stage.over && (at < stage.frame || stage.isOver);
  const notThere = { text: "", kind: "over" };
  const overOf = ({ over }, at) => {
    if (over.kind === "note" && at >= stage.frame) return notThere;
    if (!isOver(at)) return notThere;
    return over.kind === "zero" && at > stage.seen ? { text: "00", kind: "over" } : over;
  };
  let isClosed = true; // whether the block of the cell has its code
  return {
    cells: cells.map((cell, i) => {
      const at = from + i;
      if (cell.isCode) isClosed = at < stage.arcs;
      else if (i === 0) isClosed = arcs[0].at < stage.arcs;
      return { ...cell, over: overOf(cell, at), isTodo: at >= stage.frame, isBare: !isClosed, isOpen: at === stage.open, isNow: at === stage.now && (stage.isOver ? "over" : "frame"), isFresh: at === stage.fresh, ...(at === stage.open && { text: hex(stage.count) }) };
    }),
    arcs: arcs.filter((arc) => arc.at < stage.arcs).map((arc) => ({ ...arc, isFresh: arc.at === stage.fresh })),
  };
}

/** Draws the outline of a block. A side at which the block continues in another row is left open. */
function outline(x, width, cells, kind) {
  const [l, r, t, b, c] = [x + 1.5, x + width - 1.5, TOP - 1.5, TOP + HEIGHT + 1.5, 5];
  const openLeft = !cells[0].first;
  const openRight = !cells[cells.length - 1].last;
  const path = openLeft
    ? `M${x} ${t}H${openRight ? x + width : `${r - c}q${c} 0 ${c} ${c}V${b - c}q0 ${c} ${-c} ${c}`}${openRight ? `M${x + width} ${b}` : ""}H${x}`
    : openRight
      ? `M${x + width} ${t}H${l + c}q${-c} 0 ${-c} ${c}V${b - c}q0 ${c} ${c} ${c}H${x + width}`
      : `M${l + c} ${t}H${r - c}q${c} 0 ${c} ${c}V${b - c}q0 ${c} ${-c} ${c}H${l + c}q${-c} 0 ${-c} ${-c}V${t + c}q0 ${-c} ${c} ${-c}z`;
  return `<path class="edge${kind}" d="${path}"/>`;
}

/** Draws an arc from the middle of a code's cell to the middle of the next code's cell, or to the edge of the row. */
function arcPath(arc, x, right) {
  const top = TOP + HEIGHT + 3;
  const kind = (arc.full ? " full" : "") + (arc.bad ? " bad" : "");
  const start = arc.from === null ? x : x + (arc.from + 0.5) * CELL + 3;
  const end = arc.to === null ? right : x + (arc.to + 0.5) * CELL - 3;
  const low = top + DEPTH;
  const r = Math.min(12, (end - start) / 2);
  const open = arc.from === null ? `M${start} ${low}` : `M${start} ${top}Q${start} ${low} ${start + r} ${low}`;
  const close = arc.to === null ? `H${end}` : `H${end - r}Q${end} ${low} ${end} ${top + 3}`;
  const tip = arc.to === null || arc.bad ? "" : `<path class="tip${kind}" d="M${end} ${top - 1}l-3.5 7h7z"/>`;
  const room = end - start > arc.note.length * 7 + 16;
  const note = room && arc.from !== null ? `<text class="note" x="${(start + end) / 2}" y="${low + 12}">${escaped(arc.note)}</text>` : "";
  return `<path class="arc${kind}${arc.isFresh ? " fresh" : ""}"${arc.isFresh ? ' pathLength="1"' : ""} d="${open}${close}"/>${tip}${note}`;
}

function overText(over, x) {
  if (over.text === "") return "";
  if (over.kind !== "zero") return `<text class="${over.kind}" x="${x}" y="${TOP - 11}">${escaped(over.text)}</text>`;
  return `<circle class="ring" cx="${x}" cy="${TOP - 16}" r="9"/><path class="stem" d="M${x} ${TOP - 7}v5"/><text class="zero" x="${x}" y="${TOP - 11}">${escaped(over.text)}</text>`;
}

/** Draws a row of cells with its arcs. The first cell is at `x`. A cell `{gap}` is in the place of bytes that are left out. */
export function row(cells, arcs, x = 0) {
  const out = [];
  const right = x + cells.length * CELL;
  for (let i = 0; i < cells.length; ) {
    let j = i + 1;
    while (j < cells.length && !cells[j].first) j++;
    const kind = cells[i].ending ? null : (cells[i].full ? " full" : "") + (cells[i].bad ? " bad" : "");
    if (kind !== null) {
      for (let k = i; k < j; k++) out.push(box(cells[k], x + k * CELL));
      if (!cells[i].isBare) out.push(outline(x + i * CELL, (j - i) * CELL, cells.slice(i, j), kind));
    } else {
      out.push(`<rect class="end" x="${x + i * CELL + 2}" y="${TOP}" width="${CELL - 4}" height="${HEIGHT}" rx="4"/>`);
    }
    for (let k = i; k < j; k++) out.push(cellText(cells[k], x + (k + 0.5) * CELL));
    i = j;
  }
  for (const arc of arcs) out.push(arcPath(arc, x, right));
  return out.join("");
}

function box(cell, x) {
  if (cell.isTodo || cell.isOpen) return `<rect class="${cell.isTodo ? "todo" : "open"}" x="${x + 3}" y="${TOP + 1}" width="${CELL - 6}" height="${HEIGHT - 2}" rx="3"/>`;
  if (cell.gap) return `<rect class="data" x="${x}" y="${TOP}" width="${CELL}" height="${HEIGHT}"/>`;
  const kind = cell.isCode ? `code${cell.full ? " full" : ""}${cell.bad ? " bad" : ""}` : "data";
  const left = cell.first ? 3 : 0;
  const right = cell.last ? 3 : 0;
  return `<rect class="${kind}" x="${x + left}" y="${TOP}" width="${CELL - left - right}" height="${HEIGHT}"${cell.isCode ? ' rx="3"' : ""}/>`;
}

function cellText(cell, x) {
  const kind = cell.isOpen ? "open" : cell.isCode ? `on${cell.isFresh ? " fresh" : ""}` : cell.ending ? "over" : "";
  const text = cell.isTodo ? "" : `<text${kind && ` class="${kind}"`} x="${cell.isCode ? x + 1.5 : x}" y="${TOP + 19}">${escaped(cell.text)}</text>`;
  const now = cell.isNow ? `<rect class="now" x="${x - 14}" y="${cell.isNow === "over" ? TOP - 28 : TOP - 1}" width="28" height="${cell.isNow === "over" ? 25 : HEIGHT + 2}" rx="4"/>` : "";
  return text + overText(cell.over, x) + now;
}

/**
 * Returns a row of a stream as an SVG: `lead` sentinels, the bytes from `from` up to `to` of a piece, and `trail` sentinels. `label`
 * is written to the left of the row, in a margin of `margin` pixels. The picture is enlarged by the factor `zoom`. With `stage` the
 * row is drawn as it is at a step of the encoder or the decoder.
 */
export function rowPicture(piece, places, from, to, { sentinel = 0, margin = 58, label = from, lead = 0, trail = 0, zoom = 1, stage = null } = {}) {
  const show = stage?.isPlain ? (byte) => hex(byte ^ sentinel) : hex;
  const whole = from < to ? cellsOf(piece, places, from, to, { sentinel, show }) : { cells: [], arcs: [] };
  const part = stage ? staged(whole, from, stage) : whole;
  const idle = (number) => new Array(number).fill(sentinelCell(hex(sentinel)));
  const arcs = part.arcs.map((arc) => ({ ...arc, from: arc.from === null ? null : arc.from + lead, to: arc.to === null ? null : arc.to + lead }));
  const cells = [...idle(lead), ...part.cells, ...idle(trail)];
  const width = margin + (cells.length + 1) * CELL;
  return `<svg width="${width * zoom}" height="${(ROW_HEIGHT - 4) * zoom}" viewBox="0 0 ${width} ${ROW_HEIGHT - 4}" aria-hidden="true">`
    + `<text class="at" x="${margin / 2}" y="${TOP + 19}">${label}</text>${row(cells, arcs, margin)}</svg>`;
}

/**
 * Draws the greatest overhead of a frame, `most(length)`, for each length of a message, as steps. Also draws a dot for a message of
 * `length` bytes whose frame is `overhead` bytes longer than the message.
 */
export function curve({ most, length, overhead }) {
  const [width, height, left, base] = [560, 150, 34, 118];
  const range = Math.max(1016, Math.ceil((length + 1) / 254) * 254);
  const top = most(range);
  const x = (bytes) => Math.round((left + (bytes / range) * (width - left - 30)) * 10) / 10;
  const y = (bytes) => Math.round((base - (bytes / (top + 1)) * (base - 12)) * 10) / 10;
  let path = `M${x(0)} ${y(most(0))}`;
  const apart = Math.ceil(range / 254 / 200) * 254; // if there are too many steps to be seen, fewer are drawn
  for (let at = apart; at <= range; at += apart) path += `H${x(at)}${at < range ? `V${y(most(at + 1))}` : ""}`;
  const every = Math.ceil(range / 254 / 4) * 254;
  let marks = "";
  for (let at = every; at <= range; at += every) marks += `<path class="axis" d="M${x(at)} ${base}v4"/><text class="at" x="${x(at)}" y="${base + 18}">${at.toLocaleString("en")}</text>`;
  for (const bytes of [1, top]) marks += `<text class="at" x="${left - 14}" y="${y(bytes) + 4}">${bytes.toLocaleString("en")}</text>`;
  return `<svg width="${width}" height="${height}" viewBox="0 0 ${width} ${height}" role="img" aria-label="A message of ${counted(length, "byte")} has ${counted(overhead, "byte")} of overhead, of at most ${most(length)}">`
    + `<path class="axis" d="M${left} 8V${base}H${width - 20}"/>${marks}<path class="most" d="${path}"/><circle class="here" cx="${x(length)}" cy="${y(overhead)}" r="5"/>`
    + `<text class="at" x="${width / 2}" y="${height - 2}">bytes of the message; up, bytes that the frame has more</text></svg>`;
}

/** Returns the cell of the sentinel after a frame. */
const sentinelCell = (text) => ({ text, first: true, last: true, ending: true, over: { text: "", kind: "over" } });

/** Returns `cells` and `arcs` with one cell, “…”, in the place of the cells from `cut.from` up to `cut.to`. */
function elide({ cells, arcs }, cut) {
  if (!cut) return { cells, arcs };
  const shift = cut.to - cut.from - 1;
  const moved = (at) => (at === null || at <= cut.from ? at : at - shift);
  const gap = { ...cells[cut.from], gap: true, text: "…", over: { text: "…", kind: "over" } };
  return {
    cells: [...cells.slice(0, cut.from), gap, ...cells.slice(cut.to)],
    arcs: arcs.map((arc) => ({ ...arc, from: moved(arc.from), to: moved(arc.to) })),
  };
}

/**
 * Returns a picture for a document. Each of `lines` is a line of the picture: `{label, pieces, cut, note}`. `pieces` are the bytes
 * between sentinels. `cut` leaves out the bytes from `cut.from` up to `cut.to` of the first piece.
 */
export function figure({ title, lines, show = String, sentinel = 0 }) {
  const margin = 118;
  const drawn = lines.map((line) => {
    const cells = [];
    const arcs = [];
    for (const piece of line.pieces) {
      const part = elide(cellsOf(piece, codePlaces(piece, sentinel), 0, piece.length, { show, showOver: show, sentinel }), piece === line.pieces[0] ? line.cut : undefined);
      for (const arc of part.arcs) arcs.push({ ...arc, from: arc.from + cells.length, to: arc.to + cells.length });
      cells.push(...part.cells, sentinelCell(show(sentinel)));
    }
    return { ...line, cells, arcs };
  });
  const columns = Math.max(...drawn.map((line) => line.cells.length));
  const lineHeight = ROW_HEIGHT + 22;
  const width = Math.max(margin + columns * CELL + 16, 720);
  const height = 34 + drawn.length * lineHeight;
  const body = drawn.map((line, i) => {
    const y = 34 + i * lineHeight;
    return `<g transform="translate(0 ${y})"><text class="label" x="${margin - 12}" y="${TOP - 11}">message</text>`
      + `<text class="label" x="${margin - 12}" y="${TOP + 19}">${escaped(line.label)}</text>${row(line.cells, line.arcs, margin)}`
      + `<text class="title" x="${margin}" y="${ROW_HEIGHT + 4}">${escaped(line.note ?? "")}</text></g>`;
  });
  return `<svg xmlns="http://www.w3.org/2000/svg" class="jcobs" width="${width}" height="${height}" viewBox="0 0 ${width} ${height}" role="img" aria-label="${escaped(title)}">`
    + `<title>${escaped(title)}</title><style>${style(".jcobs")}</style><rect class="paper" width="${width}" height="${height}"/>`
    + `<text class="title" x="16" y="22" style="font-weight:600">${escaped(title)}</text>${body.join("")}</svg>\n`;
}
