// Shows a stream. Above each byte is the byte of the message that corresponds to it, and below the bytes are the arcs from code to
// code. The byte under the mouse or at the cursor is explained, and can be changed, in the message or in the frame.
import { CELL, rowPicture } from "../draw.js";
import { explainFrame, explainMessage } from "./explain.js";
import { printHex } from "./hex.js";
import { BADGES, MESSAGE } from "./pieces.js";
import { Rows } from "./rows.js";
import { lastAtOrBefore } from "./search.js";

const LINE_HEIGHT = 93;   // pixels of a line of bytes
const OUTCOME_HEIGHT = 36;
const WIDTHS = [32, 28, 24, 20, 16, 14, 12, 10, 9, 8, 7, 6, 5, 4];
const ZOOM = 1.5;        // the greatest factor by which a frame is enlarged that fits on one line
const FAR = 4096; // how many bytes the cursor skips at most on the way to the next byte of a message
const FRAME = "frame";
const OVER = "over"; // the lane of the messages

export class Canvas {
  #box;
  #on;
  #rows;
  #pieces = null;
  #hasOutcomes = true;
  #columns = 8;
  #margin = 60;
  #zoom = 1;
  #rowStarts = new Float64Array(1);
  #tops = new Float64Array(1);
  #active = 0;
  #lane = FRAME;
  #digit = "";
  #mouse = { x: -1, y: -1 };
  #stage = null;

  /**
   * `on` has:
   * - `name`, for the elements' ids;
   * - `outcome(element, at)`, which fills the row above a piece;
   * - `mark(i)`, which returns a note on a byte that is marked;
   * - `act(i)`, which is called for a click on a byte and for Enter;
   * - `write(i, byte)`, which changes a byte of the stream, and `splice(at, index, removed, bytes)`, which changes bytes of a piece's
   *   message. They return the reason if they can't do so.
   */
  constructor(box, on) {
    this.#box = box;
    this.#on = on;
    this.#rows = new Rows(box, { topOf: (index) => this.#topOf(index), fill: (element, index) => this.#fillRow(element, index) });
    let width = 0;
    new ResizeObserver(([{ contentRect }]) => {
      if (contentRect.width === width) return;
      width = contentRect.width;
      this.#layOut();
    }).observe(box);
    box.addEventListener("click", (event) => this.#click(event));
    box.addEventListener("mousemove", (event) => this.#hover(event));
    box.addEventListener("mouseleave", () => this.#explain(this.#active, this.#lane));
    box.addEventListener("keydown", (event) => this.#key(event));
    box.addEventListener("blur", () => this.#begin(""));
    this.#part("byte").addEventListener("input", (event) => this.#takeField(event.target));
  }

  #part(name) {
    return document.getElementById(`${this.#on.name}-${name}`);
  }

  /** Shows pieces. If `hasOutcomes` is true, a row above each piece says what it decodes to. */
  show(pieces, hasOutcomes = true) {
    const digit = this.#digit !== "" && pieces.stream.every((byte, i) => byte === this.#pieces.stream[i]) ? this.#digit : "";
    this.#pieces = pieces;
    this.#stage = null;
    this.#hasOutcomes = hasOutcomes;
    this.#active = Math.max(0, Math.min(this.#active, pieces.stream.length - 1));
    if (this.#lane === OVER && !this.#isThere(this.#active)) this.#lane = FRAME;
    this.#layOut();
    this.#begin(digit); // the first of two digits stays if the stream hasn't changed
  }

  /** Draws the first piece as it is at a step (see `rowPicture`), or whole if `stage` is null. Scrolls to the byte that is read. */
  stage(stage) {
    this.#stage = stage;
    this.#rows.refresh();
    if (stage) this.#rows.reveal(this.#rowStarts[0] + this.#lineOf(Math.max(0, stage.now))[1] + (this.#hasOutcomes ? 1 : 0));
    this.#mark();
  }

  /** Puts the cursor on a byte of the stream. */
  goTo(i) {
    this.#active = i;
    this.#lane = FRAME;
    this.#mark();
  }

  /** Puts the cursor on a byte and scrolls to it, as a link does. */
  open(i) {
    if (!(i < this.#pieces.stream.length)) return;
    [this.#active, this.#lane] = [i, FRAME];
    this.#reveal();
  }

  get active() {
    return this.#active;
  }

  #layOut() {
    const pieces = this.#pieces;
    if (!pieces) return;
    this.#margin = Math.max(30, String(pieces.stream.length).length * 7 + 10);
    const fitting = Math.floor((this.#box.clientWidth - this.#margin) / CELL) - 1; // one cell is for the sentinel
    this.#columns = WIDTHS.find((width) => width <= fitting) ?? 4;
    const needed = this.#margin + (pieces.stream.length + 1) * CELL;
    this.#zoom = this.#hasOutcomes ? 1 : Math.max(1, Math.min(ZOOM, this.#box.clientWidth / needed));
    this.#box.style.setProperty("--zoom", this.#zoom);
    this.#rowStarts = new Float64Array(pieces.count + 1);
    this.#tops = new Float64Array(pieces.count + 1);
    const [extra, head] = this.#hasOutcomes ? [1, OUTCOME_HEIGHT] : [0, 0];
    const lineHeight = LINE_HEIGHT * this.#zoom;
    for (let at = 0; at < pieces.count; at++) {
      const lines = this.#lines(at);
      this.#rowStarts[at + 1] = this.#rowStarts[at] + extra + lines;
      this.#tops[at + 1] = this.#tops[at] + head + lines * lineHeight;
    }
    this.#box.style.height = `${Math.ceil(Math.max(lineHeight, Math.min(this.#tops[pieces.count], 8.5 * LINE_HEIGHT))) + 2}px`;
    this.#rows.reset(this.#rowStarts[pieces.count]);
    this.#mark();
  }

  /** Returns how many lines the bytes of a piece need. The sentinel that ends the piece is on the line of its last byte. */
  #lines(at) {
    const { ends, ended } = this.#pieces;
    return Math.max(1, Math.ceil((ends[at] - this.#pieces.start(at) - (at < ended ? 1 : 0)) / this.#columns));
  }

  /** Returns the index of the first byte of a piece's line, and the index after its last byte. */
  #range(at, line) {
    const from = this.#pieces.start(at) + line * this.#columns;
    return [from, line + 1 >= this.#lines(at) ? this.#pieces.ends[at] : from + this.#columns];
  }

  #pieceOfRow(index) {
    return lastAtOrBefore((at) => this.#rowStarts[at], index, this.#pieces.count);
  }

  #topOf(index) {
    if (!this.#pieces?.count) return 0;
    const at = this.#pieceOfRow(index);
    const inside = index - this.#rowStarts[at];
    const isBelow = this.#hasOutcomes && inside > 0;
    return this.#tops[at] + (isBelow ? OUTCOME_HEIGHT - LINE_HEIGHT : 0) + inside * LINE_HEIGHT * this.#zoom;
  }

  /** Returns the piece of a byte, and the line in that piece. */
  #lineOf(i) {
    const at = this.#pieces.at(i);
    return [at, Math.min(this.#lines(at) - 1, Math.floor((i - this.#pieces.start(at)) / this.#columns))];
  }

  #fillRow(element, index) {
    const at = this.#pieceOfRow(index);
    const line = index - this.#rowStarts[at] - (this.#hasOutcomes ? 1 : 0);
    element.setAttribute("role", "presentation");
    if (line < 0) {
      element.className = "row outcome";
      this.#on.outcome(element, at);
      return;
    }
    const pieces = this.#pieces;
    const [from, to] = this.#range(at, line);
    const [front, back] = [pieces.fronts[at], pieces.back(at)];
    const first = Math.min(Math.max(from, front), to);
    const last = Math.min(Math.max(first, back), to);
    element.className = "row";
    element.innerHTML = rowPicture(pieces.piece(at), pieces.codes(at).places, first - front, last - front, {
      sentinel: pieces.sentinel, margin: this.#margin, label: from, lead: first - from, trail: to - last, zoom: this.#zoom, stage: at === 0 ? this.#stage : null,
    }) + `<span class="lane over" role="presentation">${this.#spots(from, to, OVER)}</span><span class="lane frame" role="presentation">${this.#spots(from, to, FRAME)}</span>`;
    for (const lane of element.querySelectorAll(".lane")) lane.style.left = `${this.#margin * this.#zoom}px`; // the content security policy forbids a style attribute
  }

  #spots(from, to, lane) {
    let spots = "";
    for (let i = from; i < to; i++) spots += lane === FRAME ? this.#frameSpot(i) : this.#overSpot(i);
    return spots;
  }

  #id(i, lane) {
    return `${this.#on.name}-${lane === FRAME ? "byte" : "over"}-${i}`;
  }

  #frameSpot(i) {
    const pieces = this.#pieces;
    const { at, value, role } = pieces.about(i);
    const note = this.#on.mark?.(i) ?? "";
    const said = role === "sentinel" ? ", sentinel" : role === "data" ? "" : value === 255 ? ", code of a full block" : ", code";
    const outcome = i === pieces.fronts[at] || i === this.#active ? `, ${pieces.name(at)}: ${BADGES[pieces.kinds[at]]} ${pieces.words(at)}` : "";
    const names = `spot byte${role === "sentinel" ? " end" : role === "code" ? " code" : ""}`;
    return `<span role="option" id="${this.#id(i, FRAME)}" data-at="${i}" class="${names}" aria-selected="${note !== ""}" aria-posinset="${i + 1}" aria-setsize="${pieces.stream.length}"`
      + ` aria-label="Byte ${i}: ${printHex(pieces.stream, i, i + 1)}${said}${note}${this.#hasOutcomes ? outcome : ""}"></span>`;
  }

  #overSpot(i) {
    const { at, value, role, index } = this.#pieces.about(i);
    if (index < 0) return `<span class="spot none" data-at="${i}"></span>`;
    const said = role === "sentinel" ? "end of the message" : `message byte ${index}: ${role === "code" ? "00" : printHex([value])}`;
    return `<span role="option" id="${this.#id(i, OVER)}" data-at="${i}" class="spot" aria-selected="false" aria-posinset="${index + 1}" aria-setsize="${this.#pieces.lengths[at] + 1}"`
      + ` aria-label="${said}"></span>`;
  }

  #isThere(i) {
    return i >= 0 && i < this.#pieces.stream.length && this.#pieces.about(i).index >= 0;
  }

  #explain(i, lane) {
    const pieces = this.#pieces;
    const isThere = i < (pieces?.stream.length ?? 0);
    this.#part("explained").textContent = !isThere ? "" : lane === FRAME ? explainFrame(pieces, i) : explainMessage(pieces, i);
  }

  #mark() {
    if (!this.#pieces) return;
    const box = this.#box;
    this.#begin("");
    const last = box.querySelector(".active");
    last?.classList.remove("active");
    last?.removeAttribute("aria-describedby");
    this.#explain(this.#active, this.#lane);
    this.#say("");
    const spot = document.getElementById(this.#id(this.#active, this.#lane));
    spot?.classList.add("active");
    spot?.setAttribute("aria-describedby", this.#part("explained").id);
    if (spot) box.setAttribute("aria-activedescendant", spot.id);
    else box.removeAttribute("aria-activedescendant");
    const field = this.#part("byte");
    if (document.activeElement !== field) field.value = this.#digitsAt();
  }

  /** Returns the byte at the cursor as digits. */
  #digitsAt() {
    const { stream } = this.#pieces;
    if (stream.length === 0) return "";
    if (this.#lane === FRAME) return printHex(stream, this.#active, this.#active + 1);
    const { role, value } = this.#pieces.about(this.#active);
    return role === "sentinel" ? "" : role === "code" ? "00" : printHex([value]);
  }

  #laneOf(element) {
    return element.closest(".lane").classList.contains("over") ? OVER : FRAME;
  }

  #click(event) {
    const spot = event.target.closest("[data-at]");
    if (!spot) return;
    const i = Number(spot.dataset.at);
    this.#lane = this.#laneOf(spot) === OVER && this.#isThere(i) ? OVER : FRAME;
    this.#active = i;
    if (this.#lane === FRAME && this.#on.act) this.#on.act(i);
    else this.#mark();
  }

  /** Explains the byte to which the mouse was moved, but not a byte that came under the mouse when the bytes changed. */
  #hover(event) {
    const spot = event.target.closest("[data-at]");
    const isMoved = event.clientX !== this.#mouse.x || event.clientY !== this.#mouse.y;
    this.#mouse = { x: event.clientX, y: event.clientY };
    if (spot && isMoved && this.#digit === "") this.#explain(Number(spot.dataset.at), this.#laneOf(spot));
  }

  #key(event) {
    if (event.ctrlKey || event.metaKey || event.altKey || !this.#pieces?.stream.length) return;
    if (this.#edit(event.key) || this.#move(event.key)) event.preventDefault();
  }

  /** Returns whether the key is one that moves the cursor. If so, moves the cursor. */
  #move(key) {
    const length = this.#pieces.stream.length;
    const page = Math.max(1, Math.floor(this.#box.clientHeight / LINE_HEIGHT));
    if (key === "ArrowLeft" || key === "ArrowRight") this.#step(key === "ArrowLeft" ? -1 : 1);
    else if (key === "ArrowUp" || key === "ArrowDown") this.#climb(key === "ArrowUp" ? -1 : 1);
    else if (key === "PageUp" || key === "PageDown") for (let i = 0; i < page; i++) this.#active = this.#beyond(key === "PageUp" ? -1 : 1);
    else if (key === "Home" || key === "End") [this.#active, this.#lane] = [key === "Home" ? 0 : length - 1, FRAME];
    else return false;
    if (this.#lane === OVER && !this.#isThere(this.#active)) this.#lane = FRAME;
    this.#reveal();
    return true;
  }

  #reveal() {
    const [at, line] = this.#lineOf(this.#active);
    if (line === 0 && this.#hasOutcomes) this.#rows.reveal(this.#rowStarts[at]);
    this.#rows.reveal(this.#rowStarts[at] + line + (this.#hasOutcomes ? 1 : 0));
    this.#mark();
  }

  /** Moves the cursor to the preceding or next byte of the same lane. */
  #step(by) {
    let i = this.#active + by;
    if (this.#lane === OVER) while (Math.abs(i - this.#active) < FAR && i >= 0 && i < this.#pieces.stream.length && !this.#isThere(i)) i += by;
    if (i < 0 || i >= this.#pieces.stream.length || (this.#lane === OVER && !this.#isThere(i))) return;
    this.#active = i;
  }

  /** Moves the cursor to the lane above or below. */
  #climb(by) {
    const isUp = by < 0;
    if (isUp ? this.#lane === FRAME && this.#isThere(this.#active) : this.#lane === OVER) {
      this.#lane = isUp ? OVER : FRAME;
      return;
    }
    const i = this.#beyond(by);
    if (i === this.#active) return;
    this.#active = i;
    this.#lane = !isUp && this.#isThere(i) ? OVER : FRAME;
  }

  /** Returns the byte above or below the cursor, in the adjacent line of bytes. */
  #beyond(by) {
    const [at, line] = this.#lineOf(this.#active);
    const column = this.#active - this.#range(at, line)[0];
    let [piece, there] = [at, line + by];
    if (there < 0) there = --piece >= 0 ? this.#lines(piece) - 1 : 0;
    else if (there >= this.#lines(at)) [piece, there] = [at + 1, 0];
    if (piece < 0 || piece >= this.#pieces.count) return this.#active;
    const [from, to] = this.#range(piece, there);
    return Math.min(from + column, to - 1);
  }

  /** Returns whether the key is one that changes a byte. If so, changes the byte. */
  #edit(key) {
    if (/^[0-9a-f]$/i.test(key)) {
      if (this.#digit === "") this.#begin(key.toLowerCase());
      else this.#write(parseInt(this.#digit + key, 16), true);
      return true;
    }
    if (key === "Escape" && this.#digit !== "") this.#mark();
    else if ((key === "Enter" || key === " ") && this.#on.act) this.#on.act(this.#active);
    else if (this.#lane === OVER && ["Delete", "Backspace", "Insert"].includes(key)) this.#cut(key);
    else return false;
    return true;
  }

  /** Shows the first of two digits, or removes it. */
  #begin(digit) {
    if (digit === this.#digit) return;
    this.#digit = digit;
    const spot = this.#box.querySelector(".active");
    if (spot) spot.textContent = digit && `${digit}_`;
    spot?.classList.toggle("typed", digit !== "");
    if (digit) this.#part("explained").textContent = `${digit}_: a second digit changes the byte, and Escape leaves it as it is.`;
  }

  #write(byte, isGoingOn) {
    const { at, index, role } = this.#pieces.about(this.#active);
    this.#begin("");
    const fault = this.#lane === FRAME ? this.#on.write(this.#active, byte) : this.#splice(at, index, role === "sentinel" ? 0 : 1, [byte]);
    if (!fault && isGoingOn) {
      this.#step(1);
      this.#reveal();
    }
    this.#say(fault ?? "");
  }

  #cut(key) {
    const { at, index, role } = this.#pieces.about(this.#active);
    if ((key === "Delete" && role === "sentinel") || (key === "Backspace" && index === 0)) return;
    if (key === "Backspace") this.#step(-1);
    const fault = key === "Insert" ? this.#splice(at, index, 0, [0]) : this.#splice(at, key === "Delete" ? index : index - 1, 1, []);
    this.#say(fault ?? "");
  }

  #splice(at, index, removed, bytes) {
    if (this.#pieces.kinds[at] !== MESSAGE) return `There is no message in ${this.#pieces.name(at)} to change; you can change the bytes below.`;
    return this.#on.splice(at, index, removed, bytes);
  }

  /** Says why a byte can't be changed. */
  #say(fault) {
    this.#part("fault").textContent = fault;
  }

  #takeField(field) {
    if (!/^[0-9a-f]{2}$/i.test(field.value) || !this.#pieces?.stream.length) return;
    this.#write(parseInt(field.value, 16), false);
    field.select();
  }
}
