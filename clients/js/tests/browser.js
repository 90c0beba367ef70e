// A browser in the test's hands: what its pages keep, their locks, and a page that goes without a word.

class Names {
  #kept = new Map();

  getItem(key) {
    return this.#kept.get(key) ?? null;
  }

  setItem(key, value) {
    this.#kept.set(key, value);
  }
}

/** Locks as `navigator.locks` has them, for one page of several. */
class Locks {
  #held;
  #ends = new Set();

  constructor(held) {
    this.#held = held; // name -> promise of its end
  }

  async request(name, { ifAvailable }, callback) {
    while (this.#held.has(name)) {
      if (ifAvailable) return callback(null);
      await this.#held.get(name);
    }
    let end;
    this.#held.set(name, new Promise((resolve) => (end = resolve)));
    const release = () => {
      if (!this.#ends.delete(release)) return;
      this.#held.delete(name);
      end();
    };
    this.#ends.add(release);
    try {
      return await callback({ name });
    } finally {
      release();
    }
  }

  releaseAll() {
    for (const release of [...this.#ends]) release();
  }
}

export class Browser {
  #held = new Map();
  #kept = new Map();
  #names = new Names();
  faults = []; // errors of the next writes
  mostAtOnce = 0; // writes
  writes = 0;
  /** Waits before each write is done. */
  beforeWrite = async () => {};

  /** A page in a tab; `tab` is what another page of the same tab had. */
  page(tab = new Names()) {
    const locks = new Locks(this.#held);
    const dying = new AbortController();
    let isGone = false;
    let atOnce = 0;
    const put = async (pairs, dropped = []) => {
      atOnce += 1;
      this.mostAtOnce = Math.max(this.mostAtOnce, atOnce);
      await this.beforeWrite();
      if (isGone) return new Promise(() => {});
      atOnce -= 1;
      const fault = this.faults.shift();
      if (fault !== undefined) throw fault;
      this.writes += 1;
      for (const [key, value] of pairs) this.#kept.set(JSON.stringify(key), structuredClone(value));
      for (const key of dropped) this.#kept.delete(JSON.stringify(key));
    };
    return {
      browser: this.#names,
      tab,
      locks,
      target: new EventTarget(),
      store: {
        get: async (key) => structuredClone(this.#kept.get(JSON.stringify(key))),
        keys: async () => [...this.#kept.keys()].map((key) => JSON.parse(key)),
        put,
      },
      signal: dying.signal,
      /** The page is gone: nothing more of it is written, and its locks are free. */
      goes() {
        isGone = true;
        dying.abort(new Error("gone"));
        locks.releaseAll();
      },
      /** Whether the browser would ask its user before the page goes. */
      get asks() {
        return !this.target.dispatchEvent(new Event("beforeunload", { cancelable: true }));
      },
    };
  }

  /** What is kept, by document. */
  kept() {
    return Object.fromEntries([...this.#kept].map(([key, value]) => [JSON.parse(key).slice(1).join(" "), value]));
  }
}
