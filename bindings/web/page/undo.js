// Keeps the states of a view before each of its changes, for Undo.

const KEPT = 100;

export class Undo {
  #button;
  #past = [];
  #now = null;
  #isTyped = false;

  /** `restore(state)` shows a state again. It is called for the button, and for Ctrl+Z outside of text fields. */
  constructor(view, button, restore) {
    this.#button = button;
    const back = () => {
      if (this.#past.length === 0) return;
      this.#now = this.#past.pop();
      this.#isTyped = false;
      button.disabled = this.#past.length === 0;
      restore(this.#now);
    };
    button.addEventListener("click", back);
    view.addEventListener("keydown", (event) => {
      if (!(event.ctrlKey || event.metaKey) || event.key !== "z" || event.target.matches("input, textarea")) return;
      event.preventDefault();
      back();
    });
  }

  /** Keeps the state of the view, an object of plain values. Characters that are typed one after another are one change. */
  note(state, isTyped) {
    const now = this.#now;
    if (now && Object.keys(state).every((name) => state[name] === now[name])) return;
    if (now && !(isTyped && this.#isTyped)) this.#past.push(now);
    if (this.#past.length > KEPT) this.#past.shift();
    this.#now = state;
    this.#isTyped = isTyped;
    this.#button.disabled = this.#past.length === 0;
  }
}
