// A client whose documents outlive their page: what was typed and isn't taken yet is kept in the browser, and sent after a reload.

import { openDatabase } from "./database.js";
import { RichdError } from "./errors.js";
import { Keeper } from "./keeping.js";
import { Client } from "./richd.js";
import { lock, takeSource, thisPage } from "./sources.js";

/**
 * @typedef {import("./document.js").OpenOptions} OpenOptions
 * @typedef {import("./document.js").RichDocument} RichDocument
 * @typedef {import("./keeping.js").Store} Store
 *
 * @typedef {object} OfflineOptions
 * @property {string} [server]  a name for the server, under which its documents are kept: the `url` if it isn't given, and is a text
 * @property {number} [timeout]  as `connect` of `richd` takes them
 * @property {number} [patience]
 * @property {AbortSignal} [signal]
 *
 * @typedef {import("./sources.js").Page & { store: Store, target: EventTarget }} OfflinePage  what a page has that keeps documents
 */

/** What another page left can't be sent: `delta` is what was typed in the document `doc`, and `error` says why. */
export class LeftEvent extends Event {
  /** @param {string} doc @param {import("./delta.js").Delta} delta @param {RichdError} error */
  constructor(doc, delta, error) {
    super("left");
    this.doc = doc;
    this.delta = delta;
    this.error = error;
  }
}

/** @returns {Promise<OfflinePage | undefined>} */
async function keepingPage() {
  const page = thisPage();
  try {
    return page && { ...page, store: await openDatabase(globalThis.indexedDB), target: globalThis };
  } catch {
    return undefined; // the browser keeps nothing
  }
}

/**
 * Gives a client that keeps what it opens. It is there at once, whether or not a server is.
 * @param {import("./links.js").Address & OfflineOptions} options
 * @param {Promise<OfflinePage | undefined> | OfflinePage} [page]  what the page has; it finds that itself
 */
export async function connect(options, page = keepingPage()) {
  const found = await page;
  const taken = await takeSource(found);
  return new OfflineClient(options, taken, taken.lasts ? found : undefined);
}

/**
 * Sends "left" besides what a client sends.
 * @extends {Client<{ left: LeftEvent }>}
 */
export class OfflineClient extends Client {
  #options;
  #page;
  #server;
  #ended;
  /** @type {Map<string, { document: Promise<RichDocument>, keeper: Keeper | undefined }>} */
  #opened = new Map();
  /** @type {Set<RichDocument>} those of which something may not be kept */
  #watched = new Set();
  #isSendingLeft = false;

  /**
   * @param {import("./links.js").Address & OfflineOptions} options
   * @param {import("./sources.js").Taken} taken
   * @param {OfflinePage} [page]  without it nothing is kept
   */
  constructor(options, { source, isNew, release }, page) {
    super({ ...options, source, isNew });
    this.#options = options;
    this.#page = page;
    this.#server = options.server ?? (typeof options.url === "string" ? options.url : "");
    this.#ended = new Promise((resolve) => {
      this.addEventListener("state", ({ state }) => state === "closed" && resolve(this.#end(release)));
    });
    this.addEventListener("connected", () => this.#sendLeft());
  }

  /** Whether the browser keeps what is typed. */
  get keeps() {
    return this.#page !== undefined;
  }

  /** Whether all that is shown would outlive the page. Where it wouldn't, the browser asks before the page goes. */
  get isKept() {
    return [...this.#watched].every((document) => document.isKept);
  }

  /**
   * Opens a document that types ahead, and keeps it: as it was kept, if it was. Where it is open already it is the same one.
   * @param {string} doc
   * @param {OpenOptions} [options]
   * @returns {Promise<RichDocument>}
   */
  open(doc, options) {
    const before = this.#opened.get(doc);
    if (before !== undefined && before.keeper?.signal.aborted === false) return before.document;
    const keeper = this.#page && this.#keeperOf(doc, this.source);
    const opened = { document: this.#openAfter(before?.keeper, doc, { ...options, keeper }), keeper };
    this.#opened.set(doc, opened);
    opened.document.catch((error) => {
      keeper?.close(error);
      if (this.#opened.get(doc) === opened) this.#opened.delete(doc);
    });
    return opened.document;
  }

  /** Ends it as a client ends, once the last of what is to be kept is written. */
  async close() {
    await super.close();
    await this.#ended;
  }

  /** @param {() => void} release */
  async #end(release) {
    await super.close();
    await Promise.all([...this.#opened.values()].map(({ keeper }) => keeper?.ended));
    release();
    this.#guard();
  }

  /** @param {string} doc @param {string} source */
  #keeperOf(doc, source) {
    return new Keeper(this.#page.store, [this.#server, source, doc]);
  }

  /** @param {Keeper | undefined} before @param {string} doc @param {OpenOptions} options */
  async #openAfter(before, doc, options) {
    await before?.ended;
    const kept = await options.keeper?.load();
    if (kept === undefined || kept.creation !== undefined) await this.#served();
    const document = await super.open(doc, options);
    this.#watched.add(document);
    document.addEventListener("progress", () => this.#guard());
    document.addEventListener("state", () => this.#guard());
    return document;
  }

  // Waits for a server, however long it takes, or for the end of the client.
  async #served() {
    while (this.state !== "connected" && this.state !== "closed") {
      await new Promise((resolve) => this.addEventListener("state", resolve, { once: true }));
    }
  }

  // Has the browser ask its user as long as something isn't kept. A page that never asks can be shown again as it was when its user comes back.
  #guard() {
    for (const document of this.#watched) if (document.isClosed) this.#watched.delete(document);
    const target = this.#page?.target ?? globalThis;
    if (this.isKept) target.removeEventListener?.("beforeunload", askUser);
    else target.addEventListener?.("beforeunload", askUser);
  }

  // Sends what pages left that are gone, each under the source that it had.
  async #sendLeft() {
    if (this.#page === undefined || this.#isSendingLeft) return;
    this.#isSendingLeft = true;
    const { store, locks } = this.#page;
    try {
      const left = (await store.keys()).filter(([server, source, , part]) => server === this.#server && source !== this.source && part === undefined);
      for (const source of new Set(left.map((key) => String(key[1])))) {
        const release = await lock(locks, source);
        if (release === undefined) continue;
        await this.#sendLeftOf(source, left.filter((key) => key[1] === source)).finally(release);
      }
    } catch {
      // it stays where it is, for the next page
    }
    this.#isSendingLeft = false;
  }

  /** @param {string} source @param {import("./keeping.js").Key[]} keys */
  async #sendLeftOf(source, keys) {
    const client = new Client({ ...this.#options, source });
    const close = () => client.close();
    this.#ended.then(close);
    try {
      for (const key of keys) await this.#sendLeftDocument(client, source, String(key[2]));
    } finally {
      await close();
    }
  }

  /** @param {Client} client @param {string} source @param {string} doc */
  async #sendLeftDocument(client, source, doc) {
    const keeper = this.#keeperOf(doc, source);
    const document = await client.open(doc, { keeper });
    document.addEventListener("doubt", ({ delta }) => this.dispatchEvent(new LeftEvent(doc, delta, new RichdError(0, "InDoubt"))));
    document.addEventListener("trouble", ({ delta, error }) => this.dispatchEvent(new LeftEvent(doc, delta, error)));
    try {
      await document.flush();
    } catch (error) {
      if (error.name === "Closed") throw error;
    }
    keeper.forget(new RichdError(0, "Closed"));
    document.close();
    await keeper.ended;
  }
}

/** @param {Event} event */
function askUser(event) {
  event.preventDefault();
}
