// What waits for all browsers of a process has one bound. Where it is passed, those for whom most waits are closed, and nobody else.

const STEP = 1 / 16; // of the bound: all are counted again once so much more waits

/**
 * @typedef {object} Waiter  a browser
 * @property {number} waiting  bytes, at the last count
 * @property {() => void} count  counts anew
 * @property {() => void} closeAsSlow
 */

export class Waiting {
  #most;
  #limit;
  #all;
  #isDue = false;
  total = 0;

  /** @param {{ most: number, all: () => Iterable<Waiter> }} options  `most` bytes of all */
  constructor({ most, all }) {
    this.#most = this.#limit = most;
    this.#all = all;
  }

  /** For one so many bytes wait now. @param {Waiter} waiter @param {number} bytes */
  note(waiter, bytes) {
    this.total += bytes - waiter.waiting;
    waiter.waiting = bytes;
    if (this.total <= this.#limit || this.#isDue) return;
    this.#isDue = true;
    setImmediate(() => this.#look());
  }

  // What was taken meanwhile isn't known of all.
  #look() {
    this.#isDue = false;
    const all = [...this.#all()];
    for (const waiter of all) waiter.count();
    all.sort((one, other) => other.waiting - one.waiting);
    for (const waiter of all) {
      if (this.total <= this.#most) break;
      waiter.closeAsSlow();
    }
    this.#limit = Math.max(this.#most, this.total + STEP * this.#most);
  }
}
