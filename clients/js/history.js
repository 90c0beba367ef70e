// Undo and redo of what one user did, past what others did since.

const MOST_STEPS = 100;
const SAME_STEP = 1_000; // milliseconds from the first change of a step, in which the next ones belong to it

/**
 * @typedef {import("./delta.js").Delta} Delta
 * @typedef {"undo" | "redo"} Way
 */

/**
 * What a document's user did, in steps as a stretch of typing. What others do moves the steps, and takes away those of which nothing is
 * left. Where the document is fetched anew, or something typed is taken back, there are none any more.
 */
export class History {
  #steps;
  #turn;

  /** @param {Steps} steps @param {(way: Way) => boolean} turn */
  constructor(steps, turn) {
    this.#steps = steps;
    this.#turn = turn;
  }

  /** Whether there is something to undo. */
  get canUndo() {
    return this.#steps.has("undo");
  }

  /** Whether there is something to redo. */
  get canRedo() {
    return this.#steps.has("redo");
  }

  /** Takes the last step back, which the document's "change" tells. Returns whether there was one. */
  undo() {
    return this.#turn("undo");
  }

  /** Does again what was undone last, where nothing was typed since. Returns whether there was something. */
  redo() {
    return this.#turn("redo");
  }

  /** Lets what is typed next be a step of its own. */
  endStep() {
    this.#steps.end();
  }

  /** Forgets all steps. */
  clear() {
    this.#steps.clear();
  }
}

/** The steps back and forth. Each is made on what is shown once those behind it are done. */
export class Steps {
  /** @type {Record<Way, Delta[]>} */
  #ways = { undo: [], redo: [] };
  #began = -Infinity; // the last step back

  /** @param {Way} way */
  has(way) {
    return this.#ways[way].length > 0;
  }

  /**
   * Keeps what takes back something that was typed.
   * @param {Delta} back
   */
  record(back) {
    const { undo } = this.#ways;
    this.#ways.redo = [];
    const now = performance.now();
    if (now - this.#began < SAME_STEP && undo.length > 0) {
      undo.push(back.compose(undo.pop()));
    } else {
      this.#began = now;
      undo.push(back);
    }
    if (undo.at(-1).ops.length === 0) undo.pop(); // it was typed and taken away again
    if (undo.length > MOST_STEPS) undo.shift();
  }

  /**
   * Takes the next step of a way, and keeps what takes it back. Undefined where there is none.
   * @param {Way} way
   * @param {Delta} contents  what is shown
   */
  take(way, contents) {
    const step = this.#ways[way].pop();
    if (step === undefined) return undefined;
    this.end();
    this.#ways[way === "undo" ? "redo" : "undo"].push(step.invert(contents));
    return step;
  }

  /**
   * Moves the steps past what somebody else did.
   * @param {Delta} change  as it is shown
   */
  move(change) {
    for (const steps of Object.values(this.#ways)) {
      let moved = change;
      for (let index = steps.length - 1; index >= 0; index -= 1) {
        const step = steps[index];
        steps[index] = moved.transform(step, true);
        moved = step.transform(moved, false);
        if (steps[index].ops.length === 0) steps.splice(index, 1);
      }
    }
  }

  end() {
    this.#began = -Infinity;
  }

  clear() {
    this.#ways = { undo: [], redo: [] };
    this.end();
  }
}
