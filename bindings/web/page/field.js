// A field for text that may be very long. A text of more than LIMIT characters is kept outside of the browser's field, because a browser
// lays out a whole field at once. A note in its place shows how long the text is.

const LIMIT = 20_000;

/** Returns whether an input event of this type comes from a key, and not from a paste. */
export const isKey = (inputType) => inputType === "insertText" || Boolean(inputType?.startsWith("deleteContent"));

export class Field {
  #area;
  #held = null;
  #note;
  #noteText;
  #changed;
  #pasted;

  /**
   * `changed(isTyped)` is called after each change; `isTyped` says whether a key made the change. `pasted(text, isWhole)` is called
   * before text is pasted, because the field changes its line ends; `isWhole` says whether nothing else will be in the field.
   */
  constructor(area, changed, pasted) {
    this.#area = area;
    this.#changed = changed;
    this.#pasted = pasted;
    this.#note = document.createElement("div");
    this.#note.className = "held";
    this.#note.hidden = true;
    this.#noteText = document.createElement("span");
    this.#note.append(this.#noteText, this.#button("Clear", () => (this.text = "")), this.#button("Edit in the field", () => this.#release()));
    area.after(this.#note);
    area.addEventListener("input", ({ inputType }) => changed(isKey(inputType)));
    area.addEventListener("paste", (event) => this.#paste(event));
  }

  /** Returns all of the text, with line feeds as line ends, as in a browser's field. */
  get text() {
    return this.#held ?? this.#area.value;
  }

  set text(given) {
    const text = given.replace(/\r\n?/g, "\n");
    this.#hold(text.length > LIMIT ? text : null);
    this.#area.value = this.#held === null ? text : "";
    this.#changed(false);
  }

  #paste(event) {
    const pasted = event.clipboardData?.getData("text/plain") ?? "";
    const { value, selectionStart, selectionEnd } = this.#area;
    this.#pasted?.(pasted, selectionEnd - selectionStart === value.length);
    if (pasted.length <= LIMIT) return;
    event.preventDefault();
    this.text = value.slice(0, selectionStart) + pasted + value.slice(selectionEnd);
    this.#note.querySelector("button").focus();
  }

  #button(text, act) {
    const button = document.createElement("button");
    button.type = "button";
    button.textContent = text;
    button.addEventListener("click", () => {
      act();
      this.#area.focus();
    });
    return button;
  }

  #release() {
    const text = this.#held;
    this.#hold(null);
    this.#area.value = text;
  }

  #hold(text) {
    this.#held = text;
    this.#area.hidden = text !== null;
    this.#note.hidden = text === null;
    if (text !== null) this.#noteText.textContent = `${text.length.toLocaleString("en")} characters, which begin “${text.slice(0, 40)}…”`;
  }

  /** Shows what is wrong with the text, or null if nothing is wrong. */
  complain(error, place) {
    place.textContent = error ?? "";
    place.hidden = error === null;
    if (error === null) this.#area.removeAttribute("aria-invalid");
    else this.#area.setAttribute("aria-invalid", "true");
  }
}
