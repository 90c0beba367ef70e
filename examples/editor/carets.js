// Carets and selections of others, drawn over a text. It has the methods of quill-cursors that `bind` calls.

export class Carets {
  #layer = Object.assign(document.createElement("div"), { className: "carets" });
  #rangeOf;
  #carets = new Map(); // by id: { name, color, range }

  /**
   * @param {HTMLElement} text  over which they lie
   * @param {(index: number, end: number) => Range} rangeOf  the part of the page that shows so many units
   */
  constructor(text, rangeOf) {
    this.#rangeOf = rangeOf;
    text.after(this.#layer);
    new ResizeObserver(() => this.draw()).observe(text);
  }

  createCursor(id, name, color) {
    this.#carets.set(id, { name, color, range: { index: 0, length: 0 } });
    this.draw();
  }

  moveCursor(id, range) {
    this.#carets.get(id).range = range;
    this.draw();
  }

  removeCursor(id) {
    this.#carets.delete(id);
    this.draw();
  }

  /** Draws them anew, as where the text has changed. */
  draw() {
    const { left, top } = this.#layer.getBoundingClientRect();
    const boxes = [...this.#carets.values()].flatMap(({ name, color, range: { index, length } }) => {
      const selected = [...this.#rangeOf(index, index + length).getClientRects()];
      const at = this.#rangeOf(index + length, index + length).getBoundingClientRect();
      const [caret, ...others] = [at, ...(length > 0 ? selected : [])].map((box, place) => {
        const element = document.createElement("div");
        element.className = place === 0 ? "caret" : "selected";
        Object.assign(element.style, { left: `${box.left - left}px`, top: `${box.top - top}px`, height: `${box.height}px`, background: color });
        if (place > 0) element.style.width = `${box.width}px`;
        return element;
      });
      const label = Object.assign(document.createElement("span"), { textContent: name });
      label.style.background = color;
      caret.append(label);
      return [...others, caret];
    });
    this.#layer.replaceChildren(...boxes);
  }
}
