// How a document that types ahead is kept, so that it outlives its page.

import { UnkeptEvent } from "./events.js";
import { Pauses } from "./pauses.js";

const PACE = 1_000; // milliseconds, at most so often what the server has anyway is written

/**
 * @typedef {import("./delta.js").Op} Op
 * @typedef {import("./delta.js").Delta} Delta
 * @typedef {(string | number)[]} Key
 *
 * @typedef {object} Store  what a page keeps, as database.js does in IndexedDB
 * @property {(key: Key) => Promise<any>} get  undefined where there is nothing
 * @property {(pairs: [Key, any][], dropped?: Key[]) => Promise<void>} put  is done once all of it is on the disk, and does all or nothing
 * @property {() => Promise<Key[]>} keys
 *
 * @typedef {object} Snapshot  what a document that types ahead is at a moment
 * @property {Delta} base
 * @property {number} revision
 * @property {boolean} isStale
 * @property {Delta | null} sent
 * @property {number} [number]  of `sent`, once it may leave
 * @property {import("./leases.js").Lease} [lease]  under which the number counts
 * @property {Delta} typed
 *
 * @typedef {object} Kept  the same, as it was kept
 * @property {Op[]} base
 * @property {number} revision
 * @property {boolean} isStale
 * @property {Op[] | null} sent
 * @property {number} [number]
 * @property {import("./leases.js").Lease} [lease]
 * @property {Op[]} typed
 * @property {undefined} [creation]
 *
 * @typedef {object} Creation  a document that is created in parts
 * @property {Op[]} first  what it is created with
 * @property {Op[]} rest  what is inserted then
 * @property {number} number  under which it is created
 * @property {import("./leases.js").Lease} [lease]  under which the number counts
 */

/** @param {Snapshot | undefined} one @param {Snapshot} other */
function areAlike(one, other) {
  return one !== undefined && ["base", "revision", "isStale", "sent", "number", "lease", "typed"].every((part) => one[part] === other[part]);
}

/** @param {Snapshot} snapshot */
const hasPending = ({ sent, typed }) => sent !== null || typed.ops.length > 0;

/**
 * Writes what a document is whenever it has changed, one write at a time. Where a write fails it tries again, after a while: until then
 * nothing that isn't written leaves.
 */
export class Keeper {
  #store;
  #key;
  /** @type {() => Snapshot} */
  #read;
  /** @type {EventTarget} */
  #document;
  /** @type {Snapshot | undefined} */
  #written;
  #isWriting = false;
  /** @type {ReturnType<typeof setTimeout> | undefined} */
  #timer;
  #pauses = new Pauses();
  #closing = new AbortController();
  #isForgotten = false;
  /** @type {{ resolve: () => void, reject: (reason: any) => void }[]} those who wait until what is there now is written */
  #waiting = [];
  /** @type {() => void} */
  #end;

  /** @type {Promise<void>} when nothing more will be written */
  ended = new Promise((resolve) => (this.#end = resolve));

  /**
   * @param {Store} store
   * @param {Key} key  of the document, and behind it "base" for what the server has of it
   */
  constructor(store, key) {
    this.#store = store;
    this.#key = key;
  }

  /** @returns {Promise<Kept | { creation: Creation } | undefined>} */
  async load() {
    const state = await this.#store.get(this.#key);
    if (state === undefined || state.creation !== undefined) return state;
    return { ...state, base: await this.#store.get([...this.#key, "base"]) };
  }

  /**
   * Keeps how a document is created, before that leaves. Where the browser refuses the write it leaves all the same: then its page has it alone.
   * @param {Creation} creation
   */
  async keep(creation) {
    await this.#store.put([[this.#key, { creation }]]).catch(() => {});
  }

  /**
   * Keeps a document from here on, and has it tell of it by "progress" and "unkept".
   * @param {EventTarget} document
   * @param {() => Snapshot} read
   */
  watch(document, read) {
    this.#read = read;
    this.#document = document;
    document.addEventListener("progress", () => this.#touch());
    this.#touch();
  }

  /** Ends with the keeper: what hasn't left by then stays here. */
  get signal() {
    return this.#closing.signal;
  }

  /** Whether what is shown is written. */
  get isUpToDate() {
    return areAlike(this.#written, this.#read());
  }

  /** Waits until what is there now is written, and throws the reason where the keeper ends before. */
  async write() {
    this.signal.throwIfAborted();
    if (this.isUpToDate) return;
    await new Promise((resolve, reject) => {
      this.#waiting.push({ resolve: () => resolve(undefined), reject });
      this.#touch();
    });
  }

  /**
   * Writes what is there a last time.
   * @param {any} reason
   */
  close(reason) {
    if (this.signal.aborted) return;
    this.#closing.abort(reason);
    this.#pauses.end();
    if (!this.#isWriting) this.#finish();
  }

  /**
   * Drops what is kept.
   * @param {any} reason
   */
  forget(reason) {
    this.#isForgotten = true;
    this.close(reason);
  }

  #touch() {
    if (this.#isWriting || this.signal.aborted || this.isUpToDate) return;
    const isIdle = this.#waiting.length === 0 && !hasPending(this.#read()) && this.#written !== undefined && !hasPending(this.#written);
    if (isIdle) this.#timer ??= setTimeout(() => this.#writeNow(), PACE);
    else this.#writeNow();
  }

  async #writeNow() {
    clearTimeout(this.#timer);
    this.#timer = undefined;
    this.#isWriting = true;
    const waiting = this.#waiting.splice(0);
    try {
      await this.#put();
      this.#pauses.reset();
      for (const { resolve } of waiting) resolve();
      this.#document.dispatchEvent(new Event("progress"));
    } catch (error) {
      this.#waiting.unshift(...waiting);
      this.#document.dispatchEvent(new UnkeptEvent(error));
      if (!this.signal.aborted) await this.#pauses.wait();
    }
    this.#isWriting = false;
    if (this.signal.aborted) this.#finish();
    else this.#touch();
  }

  async #put() {
    const snapshot = this.#read();
    const { base, sent, typed, ...rest } = snapshot;
    /** @type {[Key, any][]} */
    const pairs = [[this.#key, { ...rest, sent: sent && sent.ops, typed: typed.ops }]];
    if (base !== this.#written?.base) pairs.push([[...this.#key, "base"], base.ops]);
    await this.#store.put(pairs);
    this.#written = snapshot;
  }

  async #finish() {
    clearTimeout(this.#timer);
    this.#isWriting = true;
    for (const { reject } of this.#waiting.splice(0)) reject(this.signal.reason);
    try {
      if (this.#isForgotten) await this.#store.put([], [this.#key, [...this.#key, "base"]]);
      else if (this.#read !== undefined && !this.isUpToDate) await this.#put();
    } catch (error) {
      this.#document?.dispatchEvent(new UnkeptEvent(error));
    }
    this.#end();
  }
}
