// Under which name a holder's commands in a document are numbered. A name of the pool is lent for a document: it is one holder's there, and
// others' in other documents, so a few sessions write for all, and a document's places are spent by those alone who write in it.

import { Journal, readLines } from "./journal.js";
import { NamesInUse, userOf } from "./names.js";

/** A name that a holder has in a document. Its numbers are worth something under this lease alone. */
export class Lease {
  /** @type {number | undefined} the number of the next command, where it is known */
  next;
  onWay = 0; // commands that were sent and have no reply
  isTold = false; // its holder asked for it, and counts on it
  isKept = true; // it is on the disk
  /** @type {string | undefined} the revision of etcd that wrote it last, as far as this gateway knows */
  mod;
  isReserved = false; // it was asked for, and is lent with the first command
  isAway = false; // its holder has gone since it was asked for; where leases are in etcd

  /**
   * @param {string} name
   * @param {number} epoch  for the how manieth time the name is lent in this document
   * @param {number} used  when it was used, in milliseconds, as it is kept; `seen` is when it was
   * @param {boolean} [isOwn]  whether a command of this holder was taken
   */
  constructor(name, epoch, used, isOwn = false) {
    Object.assign(this, { name, epoch, used, isOwn, seen: used });
  }

  /**
   * Whether its numbers are all unused still, and its holder doesn't count on it: he knows nothing of it, or the document is nowhere.
   * @param {boolean} isNowhere
   */
  isUnused(isNowhere) {
    return this.epoch === 1 && this.next === 1 && this.onWay === 0 && (isNowhere || !this.isTold);
  }

  /** A command leaves. */
  begin() {
    this.onWay += 1;
  }

  /** A command's reply came, or the session was cut. @param {number} n @param {"taken" | "again" | "refused" | "cut"} result */
  settle(n, result) {
    this.onWay -= 1;
    if (result === "cut") this.next = undefined;
    else if (result === "taken") this.next = n + 1;
    else if (result === "again" && this.next !== undefined) this.next = Math.max(this.next, n + 1);
  }
}

/**
 * The names of a pool in the order in which they are tried, those that have sessions first: each key begins with another one. The key is the user,
 * so that few names serve him in all of his documents; where one user may have them all it is the document.
 */
export function namesFor(key, names, first) {
  let hash = 0;
  for (let at = 0; at < key.length; at += 1) hash = (31 * hash + key.charCodeAt(at)) >>> 0;
  const begin = hash % first;
  return [...names.slice(begin, first), ...names.slice(0, begin), ...names.slice(first)];
}

/**
 * Which name a holder gets in a document where he has none: one that nobody had there, else one that is asked back, of his own where he has as
 * many as a user may. Undefined: he waits.
 *
 * A name that was only asked for goes to whoever sends a command; one that was written under, once it wasn't used for a while, or at once from
 * the same user where its holder is gone. One with something on its way stays. A user who sends under as many names of the store as he may gets one
 * of these for a command.
 * @typedef {object} Taken
 * @property {string} name
 * @property {number} seen  when it was used last
 * @property {boolean} mayGo  nothing is on its way, and nobody else decides
 * @property {boolean} isOver  its term is over, or it wasn't used for a while
 * @property {boolean} [isReserved]
 *
 * @template {Taken} T
 * @param {[string, T][]} taken  holders with their leases
 * @param {{ doc: string, holder: string, isCommand: boolean, names: string[], first: number, naming: Naming, only?: string[] }} about  `only`: the
 *   names of the store under which he may send now, where they aren't all
 * @returns {{ free?: string, old?: [string, T] }}
 */
export function choice(taken, { doc, holder, isCommand, names, first, naming: { most, isHere }, only }) {
  const user = userOf(holder);
  const own = taken.filter(([other]) => userOf(other) === user);
  const hasRoom = own.length < most;
  const lent = new Set(taken.map(([, { name }]) => name));
  const mayUse = (name) => only === undefined || !isCommand || only.includes(name);
  const order = namesFor(most < first ? user : doc, names, first);
  const free = hasRoom ? order.find((name) => !lent.has(name) && mayUse(name)) : undefined;
  if (free !== undefined) return { free };
  const isLeft = ([other, { isOver, isReserved }]) => isOver || (isReserved && isCommand) || (userOf(other) === user && !isHere(other));
  const goes = (it) => it[1].mayGo && mayUse(it[1].name) && isLeft(it);
  const age = ([, { isReserved, seen }]) => (isReserved ? 0 : seen);
  const [old] = (hasRoom ? taken : own).filter(goes).sort((one, other) => age(one) - age(other));
  return { old };
}

/**
 * @typedef {object} Naming  how many names a user has, and who gives his up
 * @property {number} most  names of a user in a document, and under which he sends at a time
 * @property {number} recall  milliseconds after which a name that isn't used may be asked back
 * @property {(holder: string) => boolean} isHere  whether he has a session
 * @property {(doc: string, from: string, to: string) => void} onRecall  a name goes from one holder to another
 */

/** @type {Naming} */
export const NAMING = { most: Infinity, recall: Infinity, isHere: () => false, onRecall: () => {} };

const isCount = (value) => Number.isSafeInteger(value) && value >= 0;

/** Whether a value is a line of leases: a document, a holder, and his name there, or null. */
const isLine = (line) =>
  Array.isArray(line) && typeof line[0] === "string" && typeof line[1] === "string"
  && (line[2] === null || (typeof line[2] === "string" && isCount(line[3]) && line[3] > 0 && Number.isFinite(line[4]) && typeof line[5] === "boolean"));

/** Whether a file has lines that are none, so that names may be lent there of which nothing is known. @param {string} file */
export const hasDamage = (file) => readLines(file, isLine).damaged > 0;

/** Leases of one store, kept in a file. */
export class Leases {
  #names;
  #first;
  #term;
  #now;
  #onLent;
  #naming;
  #inUse;
  /** @type {Map<string, Map<string, Lease>>} doc -> holder -> lease */
  #docs = new Map();
  #written = new WeakMap(); // lease -> the promise that it is on the disk, until it is
  #journal;

  /**
   * @param {{ file: string, names: string[], first: number, term: number, now?: () => number, onLent?: (doc: string, lease: Lease) => void,
   *   naming?: Naming, onFailure?: (error: Error) => void, open?: (file: string, flags: string) => Promise<any> }} options
   *     `first` of the names have sessions that are always open; `term` in milliseconds; the others are those of a Journal
   */
  constructor({ file, names, first, term, now = Date.now, onLent = () => {}, naming = NAMING, ...options }) {
    this.#naming = naming;
    this.#inUse = new NamesInUse({ most: naming.most, now });
    this.#names = names;
    this.#first = first;
    this.#term = term;
    this.#now = now;
    this.#onLent = onLent;
    for (const [doc, holder, name, epoch, used, isOwn] of readLines(file, isLine).values) {
      if (name === null) this.#docs.get(doc)?.delete(holder);
      else this.#put(doc, holder, Object.assign(new Lease(name, epoch, used, isOwn), { seen: now() }));
    }
    const kept = [...this.#docs].flatMap(([doc, holders]) => [...holders].map(([holder, lease]) => this.#line(doc, holder, lease)));
    this.#journal = new Journal(file, kept, options);
  }

  /**
   * The holder's lease for a command, or a new one, which is on the disk by then. Undefined where there is none now, or his user sends under as
   * many other names as he may.
   * @param {string} doc
   * @param {string} holder
   * @returns {Lease | undefined | Promise<Lease>}
   */
  lend(doc, holder) {
    const found = this.#docs.get(doc)?.get(holder);
    if (found === undefined) return this.#lendNew(doc, holder, true);
    found.seen = this.#now();
    if (!this.#inUse.takes(holder, found)) return undefined;
    if (found.isReserved) return this.#keep(doc, holder, found);
    return this.#used(doc, holder, found);
  }

  // That a lease is used may be written later, as long as the file keeps it from being lent anew.
  #used(doc, holder, lease) {
    const age = this.#now() - lease.used;
    const writing = this.#written.get(lease) ?? (age > this.#term / 8 ? this.#renew(doc, holder, lease) : undefined);
    return writing !== undefined && (age > this.#term || !lease.isKept) ? writing : lease;
  }

  /**
   * The holder's lease, as he asks for it: a name that nobody has is his as long as his session lasts, or until somebody writes who needs it,
   * and is lent with his first command.
   * @param {string} doc
   * @param {string} holder
   * @returns {Lease | undefined | Promise<Lease>}
   */
  reserve(doc, holder) {
    const found = this.#docs.get(doc)?.get(holder);
    if (found === undefined) return this.#lendNew(doc, holder, false);
    if (found.isReserved) return found;
    found.seen = this.#now();
    return this.#used(doc, holder, found);
  }

  /** Whether `lend` is known to make no new lease. */
  has(doc, holder) {
    return this.#docs.get(doc)?.has(holder) ?? false;
  }

  /** Whether it makes none. */
  async isHeld(doc, holder) {
    return this.has(doc, holder);
  }

  /** Takes back a lease that was new, and under which nothing was taken. */
  release(doc, holder, lease, isNowhere = false) {
    if (!lease.isUnused(isNowhere) || this.#docs.get(doc)?.get(holder) !== lease) return;
    this.#remove(doc, holder);
    if (lease.isReserved) return;
    this.#journal.add([doc, holder, null]).catch(() => {});
  }

  /** A command of the holder was taken under its lease for the first time. */
  own(doc, holder, lease) {
    if (lease.isOwn || lease.epoch === 1) return;
    lease.isOwn = true;
    this.#journal.add(this.#line(doc, holder, lease)).catch(() => {}); // then it is asked for once more after the next start
  }

  /** The holder's session has ended. */
  depart(holder, docs) {
    for (const doc of docs) if (this.#docs.get(doc)?.get(holder)?.isReserved) this.#remove(doc, holder);
  }

  /** Is called now and then. */
  tidy() {
    this.#inUse.tidy();
  }

  close() {
    return this.#journal.close();
  }

  #renew(doc, holder, lease) {
    const used = this.#now();
    const written = this.#journal.add(this.#line(doc, holder, { ...lease, used })).then(
      () => {
        this.#written.delete(lease);
        lease.used = used;
        return lease;
      },
      (error) => {
        this.#written.delete(lease); // it is written again when it is used next
        throw error;
      },
    );
    written.catch(() => {});
    this.#written.set(lease, written);
    return written;
  }

  #lendNew(doc, holder, isCommand) {
    const now = this.#now();
    const { recall, onRecall } = this.#naming;
    const taken = [...(this.#docs.get(doc) ?? [])].map(([other, lease]) => {
      const { name, seen, used, onWay, isReserved } = lease;
      const isOver = used < now - this.#term || seen < now - recall;
      return /** @type {const} */ ([other, { name, seen, isReserved, isOver, mayGo: onWay === 0 && !this.#written.has(lease), lease }]);
    });
    const only = this.#inUse.only(holder);
    const { free, old } = choice(taken, { doc, holder, isCommand, names: this.#names, first: this.#first, naming: this.#naming, only });
    if (free === undefined && old === undefined) return undefined;
    const isNew = free !== undefined || old[1].isReserved;
    const lease = isNew ? new Lease(free ?? old[1].name, 1, now) : new Lease(old[1].name, old[1].lease.epoch + 1, now);
    if (isNew) lease.next = 1;
    if (old !== undefined) {
      this.#remove(doc, old[0]);
      onRecall(doc, old[0], holder);
    }
    this.#put(doc, holder, lease);
    if (!isCommand && isNew) return Object.assign(lease, { isReserved: true });
    if (isCommand) this.#inUse.takes(holder, lease);
    return this.#keep(doc, holder, lease, isNew ? undefined : [old[0], old[1].lease]);
  }

  // Writes a lease. Where that fails nobody has it, but for who had it before.
  #keep(doc, holder, lease, old) {
    const wasReserved = lease.isReserved;
    Object.assign(lease, { isReserved: false, isKept: false });
    const written = this.#journal.add(this.#line(doc, holder, lease)).then(
      () => {
        this.#written.delete(lease);
        lease.isKept = true;
        this.#onLent(doc, lease);
        return lease;
      },
      (error) => {
        this.#written.delete(lease);
        lease.isReserved = wasReserved;
        if (!wasReserved && this.#docs.get(doc)?.get(holder) === lease) this.#remove(doc, holder);
        if (old !== undefined) this.#put(doc, old[0], old[1]);
        throw error;
      },
    );
    this.#written.set(lease, written);
    return written;
  }

  #remove(doc, holder) {
    this.#docs.get(doc).delete(holder);
    if (this.#docs.get(doc).size === 0) this.#docs.delete(doc);
  }

  #put(doc, holder, lease) {
    if (!this.#docs.has(doc)) this.#docs.set(doc, new Map());
    const holders = this.#docs.get(doc);
    for (const [other, { name }] of holders) if (name === lease.name && other !== holder) holders.delete(other);
    holders.set(holder, lease);
  }

  #line(doc, holder, { name, epoch, used, isOwn }) {
    return [doc, holder, name, epoch, used, isOwn];
  }
}
