// In which store a document is.

import path from "node:path";
import { Journal, readLines } from "./journal.js";

const FULL = 600_000; // milliseconds that a store counts as full which refused a new document for that
const AT_ONCE = 20; // places that an import writes at the same time
const SURE = 30_000; // milliseconds within which nobody sweeps a place away, see sweep.js
const MOST_OPEN = 10_000; // places that are chosen and not written
const MOST_KNOWN = 200_000; // places in memory; then those that were learnt longest ago are asked for anew
const MOST_TRIES = 10; // of a transaction that others were faster than
const makerKey = (user, doc) => `maker/${encodeURIComponent(user ?? "")}/${doc}`;
const ordered = (one, other) => (one < other ? -1 : one > other ? 1 : 0);

/**
 * Without etcd: the one store, or a rule by the beginnings of names. The documents that were created here, or imported, are listed in a file.
 */
export class RuledPlaces {
  #rule;
  #docs = new Set();
  #counts = new Map(); // user -> documents that he has created
  #journal;
  #sorted = null;
  /** @type {Map<string, Promise<void>>} documents that are being written */
  #written = new Map();

  /** @param {{ rule: { prefix: string, store: string }[], folder: string, onFailure?: (error: Error) => void }} options */
  constructor({ rule, folder, ...options }) {
    this.#rule = [...rule].sort((one, other) => other.prefix.length - one.prefix.length);
    const file = path.join(folder, "documents");
    const isText = (value) => typeof value === "string";
    const { values } = readLines(file, (line) => isText(line) || (Array.isArray(line) && line.length === 2 && line.every(isText)));
    for (const line of values) this.#add(...(isText(line) ? [line] : line));
    this.#journal = new Journal(file, values, options);
  }

  /** How many documents a user has created, those that are deleted too. */
  async countOf(user) {
    return this.#counts.get(user) ?? 0;
  }

  #add(doc, user) {
    if (this.#docs.has(doc)) return;
    this.#docs.add(doc);
    this.#sorted = null;
    if (user !== undefined) this.#counts.set(user, (this.#counts.get(user) ?? 0) + 1);
  }

  /** The store's name; null where there is none, undefined where it has to be found first. */
  cached(doc) {
    return this.#rule.find(({ prefix }) => doc.startsWith(prefix))?.store ?? null;
  }

  async find(doc) {
    return this.cached(doc);
  }

  /** Whether a place is chosen and not kept yet. */
  isOpen() {
    return false;
  }

  async place() {}

  /** Takes a place back that a creation from here has written, and that isn't made. */
  async undo() {}

  /** Where a creation goes that a store refused as it is full of documents; null: nowhere. */
  async move() {
    return null;
  }

  /** Where a document is that its store hasn't. */
  async again(doc) {
    return this.cached(doc);
  }

  /** A document is there: it is listed from then on. Gives a promise where that has to be written first. */
  created(doc, store = undefined, user = undefined) {
    if (this.#docs.has(doc)) return undefined;
    if (!this.#written.has(doc)) this.#written.set(doc, this.#write(doc, user).finally(() => this.#written.delete(doc)));
    return this.#written.get(doc);
  }

  async #write(doc, user) {
    await this.#journal.add(user === undefined ? doc : [doc, user]);
    this.#add(doc, user);
  }

  /** Names behind one, in order, at most so many. */
  async list(after, limit) {
    this.#sorted ??= [...this.#docs].sort(ordered);
    const from = this.#sorted.findIndex((doc) => doc > after);
    return from === -1 ? [] : this.#sorted.slice(from, from + limit);
  }

  /** Takes in documents that a store had. Gives those whose place is another. */
  async take(docs, store) {
    const elsewhere = docs.filter((doc) => this.cached(doc) !== store);
    await Promise.all(docs.filter((doc) => this.cached(doc) === store).map((doc) => this.created(doc)));
    return elsewhere;
  }

  close() {
    return this.#journal.close();
  }
}

/**
 * With etcd: a creation chooses a place, and writes it in one transaction with its name. Where the store refuses it all that is taken back in
 * another, unless a second creation has written the place meanwhile. Whose document it is is counted once the store has it.
 */
export class EtcdPlaces {
  #etcd;
  #stores;
  #now;
  /** @type {Map<string, string>} */
  #known = new Map();
  /** @type {Map<string, Promise<string | null>>} */
  #asked = new Map();
  /** @type {Map<string, number>} store -> until when it counts as full */
  #full = new Map();
  /** @type {Map<string, string>} places that are chosen, and aren't in etcd yet */
  #open = new Map();
  /** @type {Map<string, { mod: string, since: number }>} places that a creation from here has written, which has no reply */
  #made = new Map();
  #turn = 0;

  /**
   * @param {{ etcd: import("./etcd.js").Etcd, stores: () => { name: string, takesNew: boolean, isOpen: boolean }[], now?: () => number }} options
   */
  constructor({ etcd, stores, now = Date.now }) {
    this.#etcd = etcd;
    this.#stores = stores;
    this.#now = now;
  }

  cached(doc) {
    return this.#known.get(doc) ?? this.#open.get(doc);
  }

  isOpen(doc) {
    return this.#open.has(doc);
  }

  /** How many documents a user has created, those that are deleted too. */
  async countOf(user) {
    return this.#etcd.countUnder(makerKey(user, ""));
  }

  /** What of a transaction writes a document's place, for its creation in a store; fails where it is placed elsewhere. */
  async claim(doc, store) {
    const key = `place/${doc}`;
    const found = await this.#etcd.get(key);
    if (found !== undefined && found.value !== store) {
      this.#open.delete(doc);
      this.#know(doc, found.value);
      throw new Error(`${doc} was placed elsewhere meanwhile`);
    }
    return { compare: found === undefined ? { key } : { key, mod: found.mod }, put: [{ key, value: store }] };
  }

  /** A transaction with what `claim` gave was done. */
  claimed(doc, store, mod) {
    this.#open.delete(doc);
    this.#made.set(doc, { mod, since: this.#now() });
    this.#know(doc, store);
  }

  /** What of a transaction takes a place back that a creation from here has written; undefined where there is nothing to take back. */
  disclaim(doc) {
    const made = this.#made.get(doc);
    return made && { compare: { key: `place/${doc}`, mod: made.mod }, remove: [{ key: `place/${doc}` }] };
  }

  /** A place was taken back, or is another creation's now. */
  disclaimed(doc) {
    this.#made.delete(doc);
    this.#known.delete(doc);
  }

  /** Writes a place that was chosen, where the name is there already. */
  async place(doc, store) {
    const { compare, put } = await this.claim(doc, store);
    const mod = await this.#etcd.transact([compare], put);
    if (mod === false) throw new Error(`${doc} is being placed elsewhere`);
    this.claimed(doc, store, mod);
  }

  /**
   * A place; null where there is none and none is to be made. Those who ask at the same time ask once.
   * @param {string} doc
   * @param {boolean} isNew  it is to be created
   */
  find(doc, isNew) {
    const key = `${isNew} ${doc}`;
    if (!this.#asked.has(key)) this.#asked.set(key, this.#ask(doc, isNew).finally(() => this.#asked.delete(key)));
    return this.#asked.get(key);
  }

  async move(doc, from) {
    this.#full.set(from, this.#now() + FULL);
    for (let tries = 0; tries < MOST_TRIES; tries += 1) {
      const found = await this.#etcd.get(`place/${doc}`);
      if (found !== undefined && found.value !== from) return this.#know(doc, found.value); // another gateway has moved it
      const next = this.#choose();
      if (found === undefined) return null;
      if (next === undefined || next === from) {
        await this.undo(doc);
        return null;
      }
      const mod = await this.#etcd.transact([{ key: found.key, mod: found.mod }], [{ key: found.key, value: next }]);
      if (mod === false) continue;
      this.claimed(doc, next, mod);
      return next;
    }
    throw new Error(`${doc} can't be placed: others were faster each time`);
  }

  async again(doc) {
    const found = await this.#etcd.get(`place/${doc}`);
    if (found === undefined) {
      this.#known.delete(doc);
      this.#open.delete(doc);
    }
    return found === undefined ? null : this.#know(doc, found.value);
  }

  async undo(doc) {
    const back = this.disclaim(doc);
    if (back === undefined) return;
    this.disclaimed(doc);
    await this.#etcd.transact([back.compare], back.remove);
  }

  /**
   * A document is there, and is counted for its user. Its place was before it; where that may have been taken for another's rest meanwhile it is
   * looked at again.
   */
  async created(doc, store, user) {
    const made = this.#made.get(doc);
    this.#made.delete(doc);
    if (made === undefined || this.#now() - made.since >= SURE) await this.#confirm(doc, store);
    if (user !== undefined) await this.#etcd.transact([], [{ key: makerKey(user, doc), value: "" }]);
  }

  async #confirm(doc, store) {
    const { value } = await this.#etcd.create(`place/${doc}`, store);
    this.#know(doc, value);
  }

  async list(after, limit) {
    const found = await this.#etcd.under("place/", { after, limit, keysOnly: true });
    return found.map(({ key }) => key.slice("place/".length));
  }

  async take(docs, store) {
    const elsewhere = [];
    for (let from = 0; from < docs.length; from += AT_ONCE) {
      await Promise.all(docs.slice(from, from + AT_ONCE).map(async (doc) => {
        if ((await this.#etcd.create(`place/${doc}`, store)).value !== store) elsewhere.push(doc);
      }));
    }
    return elsewhere;
  }

  async close() {}

  async #ask(doc, isNew) {
    const key = `place/${doc}`;
    if (!isNew) return this.again(doc);
    const found = await this.#etcd.get(key);
    if (found !== undefined) return this.#know(doc, found.value);
    if (!this.#open.has(doc)) this.#open.set(doc, this.#choose() ?? this.#stores()[0].name); // where all are full, one of them says so
    while (this.#open.size > MOST_OPEN) this.#open.delete(this.#open.keys().next().value);
    return this.#open.get(doc) ?? null;
  }

  #know(doc, store) {
    this.#open.delete(doc);
    this.#known.delete(doc);
    this.#known.set(doc, store);
    if (this.#known.size > MOST_KNOWN) this.#known.delete(this.#known.keys().next().value);
    return store;
  }

  // The next store in turn that takes new documents; one that is there, if there is one.
  #choose() {
    const taking = this.#stores().filter(({ name, takesNew }) => takesNew && !(this.#full.get(name) > this.#now()));
    const open = taking.filter(({ isOpen }) => isOpen);
    const from = open.length > 0 ? open : taking;
    this.#turn += 1;
    return from[this.#turn % from.length]?.name;
  }
}
