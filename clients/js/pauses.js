// How long to wait before something is tried again.

const FIRST_PAUSE = 100; // milliseconds
const LAST_PAUSE = 5_000;

/** Pauses that double, from a tenth of a second up to five. */
export class Pauses {
  #next = FIRST_PAUSE;
  #end = () => {};

  next() {
    const pause = this.#next;
    this.#next = Math.min(2 * pause, LAST_PAUSE);
    return pause;
  }

  reset() {
    this.#next = FIRST_PAUSE;
  }

  /**
   * Waits for the next pause, or until `end` is called.
   * @returns {Promise<void>}
   */
  wait() {
    return new Promise((resolve) => {
      const timer = setTimeout(resolve, this.next());
      this.#end = () => {
        clearTimeout(timer);
        resolve();
      };
    });
  }

  /** Ends the pause that somebody waits for. */
  end() {
    this.#end();
  }
}
