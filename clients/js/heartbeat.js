// Whether the other end is still there: it may be gone without a word.

/**
 * Asks where nothing came for half of the patience, and gives up where nothing came for all of it though something is due. It goes by the
 * clock. A timer that comes late, as in a page behind others or on a computer that slept, knows nothing of what waits to be read: so it
 * asks first, and gives up half of the patience later.
 */
export class Heartbeat {
  #patience;
  #isDue;
  #ask;
  #giveUp;
  #silentSince = now();
  #wakesAt = 0;
  #hasEnded = false;
  /** @type {ReturnType<typeof setTimeout> | undefined} */
  #timer;

  /**
   * @param {object} options
   * @param {number} options.patience  milliseconds
   * @param {() => boolean} options.isDue  whether an answer is due
   * @param {() => void} options.ask  sends something that will be answered
   * @param {() => void} options.giveUp
   */
  constructor({ patience, isDue, ask, giveUp }) {
    this.#patience = patience;
    this.#isDue = isDue;
    this.#ask = ask;
    this.#giveUp = giveUp;
    this.#wait();
  }

  /** Something came, or something is due from now on. */
  begin() {
    this.#silentSince = now();
  }

  /** Asks at once, and gives up half of the patience later where nothing comes. */
  check() {
    this.#silentSince = now() - this.#patience / 2;
    this.#ask();
    this.#wait();
  }

  end() {
    this.#hasEnded = true;
    clearTimeout(this.#timer);
  }

  #wait() {
    clearTimeout(this.#timer);
    if (this.#hasEnded) return;
    const silent = now() - this.#silentSince;
    const half = this.#patience / 2;
    const pause = (silent < half ? half : this.#patience) - silent;
    this.#wakesAt = now() + pause;
    this.#timer = setTimeout(() => this.#beat(), pause);
  }

  #beat() {
    const isLate = now() - this.#wakesAt > this.#patience / 4;
    const silent = now() - this.#silentSince;
    if (silent < this.#patience / 2) return this.#wait();
    if (isLate || !this.#isDue()) return this.check();
    if (silent >= this.#patience) return this.#giveUp();
    this.#wait();
  }
}

const now = () => performance.now();
