// A list of rows. Only the visible rows are in the document.
import { lastAtOrBefore } from "./search.js";

const LONGEST = 8_000_000; // pixels; browsers draw no element that is much higher, so a higher list scrolls faster
const MARGIN = 3;          // rows that are kept above and below the visible rows

export class Rows {
  #box;
  #spacer;
  #shown = new Map();
  #count = 0;
  #topOf;
  #fill;
  #isAsked = false;

  /** `fill(element, index)` writes row `index` into an element. The top of the row is `topOf(index)` pixels below the top of the first row. */
  constructor(box, { topOf, fill }) {
    this.#box = box;
    this.#topOf = topOf;
    this.#fill = fill;
    this.#spacer = document.createElement("div");
    this.#spacer.className = "spacer";
    this.#spacer.setAttribute("role", "presentation");
    box.append(this.#spacer);
    box.addEventListener("scroll", () => this.#ask(), { passive: true });
    new ResizeObserver(() => this.#ask()).observe(box);
  }

  /** Sets the number of rows, and draws all visible rows again. */
  reset(count) {
    this.#count = count;
    this.#spacer.style.height = `${Math.min(this.#total(), LONGEST)}px`;
    for (const element of this.#shown.values()) element.remove();
    this.#shown.clear();
    this.#draw();
  }

  /** Fills the visible rows again. */
  refresh() {
    for (const [index, element] of this.#shown) this.#fill(element, index);
  }

  /** Scrolls no further than needed to make a row visible. */
  reveal(index) {
    const [top, bottom] = [this.#topOf(index), this.#topOf(index + 1)];
    const seen = this.#box.clientHeight;
    const offset = this.#offset();
    if (top < offset) this.#scrollTo(top);
    else if (bottom > offset + seen) this.#scrollTo(bottom - seen);
    this.#draw();
  }

  #total() {
    return this.#topOf(this.#count);
  }

  /** Returns how far the list is scrolled, in pixels of the whole list. */
  #offset() {
    const seen = this.#box.clientHeight;
    const most = Math.min(this.#total(), LONGEST) - seen;
    return this.#total() <= LONGEST || most <= 0 ? this.#box.scrollTop : (this.#box.scrollTop / most) * (this.#total() - seen);
  }

  #scrollTo(offset) {
    const seen = this.#box.clientHeight;
    const most = LONGEST - seen;
    this.#box.scrollTop = this.#total() <= LONGEST ? offset : (offset / (this.#total() - seen)) * most;
  }

  #ask() {
    if (this.#isAsked) return;
    this.#isAsked = true;
    requestAnimationFrame(() => {
      this.#isAsked = false;
      this.#draw();
    });
  }

  #draw() {
    const offset = this.#offset();
    const first = Math.max(0, lastAtOrBefore(this.#topOf, offset, this.#count) - MARGIN);
    const last = Math.min(this.#count, lastAtOrBefore(this.#topOf, offset + this.#box.clientHeight, this.#count) + 1 + MARGIN);
    const slip = this.#box.scrollTop - offset;
    for (const [index, element] of this.#shown) {
      if (index >= first && index < last) continue;
      element.remove();
      this.#shown.delete(index);
    }
    let before = null;
    for (let index = last - 1; index >= first; index--) {
      let element = this.#shown.get(index);
      if (!element) {
        element = document.createElement("div");
        element.className = "row";
        this.#fill(element, index);
        this.#shown.set(index, element);
        this.#spacer.insertBefore(element, before);
      }
      element.style.transform = `translateY(${this.#topOf(index) + slip}px)`;
      before = element;
    }
  }
}
