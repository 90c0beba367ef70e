// News of all documents that some browser follows, by one session of the store. A line is neither parsed nor copied for a follower.

import { REFUSAL, codeOf, revOf } from "./messages.js";
import { Upstream } from "./upstream.js";

const MOST_LINES = 512; // of news that are kept of a document; then the older half goes
const MOST_BYTES = 4 << 20; // of these lines
const SHED = 7 / 8; // of what may be kept of all documents: so much is left once it was more
const MOST_TRIES = 5; // to begin a subscription whose document goes on meanwhile
const MOST_TAKEN = 100; // revisions of a document whose news is waited for, to measure that
const POKE = { do: "unsubscribe", doc: "-" }; // a session tells its news after each message, and else each 100 milliseconds

export const endedLine = (doc, code = 13) => Buffer.from(`{"doc":"${doc}","ended":${code}}\n`);

/**
 * @typedef {{ bytes: number, most: number }} Kept  bytes of the news that are kept of all documents of a gateway, and how many they may be
 */

/** What a browser follows: a number, the last revision that it was told. */
export class Subscription {
  /** @type {Buffer[]} */
  backlog = []; // lines that it gets before those of the ring
  backlogBytes = 0;
  hasEnded = false;

  /**
   * @param {string} doc
   * @param {number} told
   * @param {(subscription: Subscription) => void} onNews  is called when there is something to tell
   */
  constructor(doc, told, onNews) {
    this.doc = doc;
    this.told = told;
    this.onNews = onNews;
  }
}

export class News {
  #follower;
  #since;
  #docs = new Map(); // doc -> { rev, first, ring, bytes, subscriptions, taken }: ring has the lines first .. rev
  #fresh = new Set(); // entries with lines that weren't told yet
  #isPoked = false;
  #wantsPoke = false;
  #onLag;
  #kept;

  /**
   * @param {{ host: string, port: number }} address
   * @param {string} source
   * @param {(doc: string, rev: number, settle: (line: Buffer) => void, wanted: () => boolean, asker: import("./store.js").Asker) => void} since  asks
   *     what came after a revision
   * @param {{ onCut?: () => void, onLag?: (milliseconds: number) => void, onGarbage?: (what: string) => void, onFault?: (error: Error) => void,
   *   onLong?: (doc: string) => void, mostNews?: number, kept?: Kept }} listener  `mostNews` bytes of a line; whoever follows the document fetches where it has more
   */
  constructor(address, source, since, { onLag = () => {}, onLong = () => {}, kept = { bytes: 0, most: Infinity }, ...listener }) {
    this.#since = since;
    this.#kept = kept;
    this.#onLag = onLag;
    this.#follower = new Upstream(address, source, {
      onNews: (doc, rev, line) => this.#take(doc, rev, line),
      onBegin: () => {
        for (const [doc, entry] of this.#docs) this.#subscribe(doc, entry);
        this.#isPoked = false;
      },
      onLong: (doc) => {
        onLong(doc);
        if (this.#docs.has(doc)) this.#end(doc, this.#docs.get(doc));
      },
      ...listener,
    });
  }

  get isOpen() {
    return this.#follower.isOpen;
  }

  end() {
    this.#follower.end();
  }

  /**
   * Follows a document from what a subscription was told on. `answer` gets the reply, or the refusal.
   * @param {Subscription} subscription
   * @param {(line: Buffer) => void} answer
   * @param {() => boolean} wanted
   * @param {import("./store.js").Asker} asker
   */
  join(subscription, answer, wanted, asker, tries = 0) {
    const { doc, told } = subscription;
    const reply = Buffer.from(`{"doc":"${doc}","ok":"subscribed","rev":${told}}\n`);
    const entry = this.#docs.get(doc);
    if (entry !== undefined && told >= entry.first - 1 && told <= entry.rev) {
      entry.subscriptions.add(subscription);
      return answer(reply);
    }
    // a subscription is refused as `since` is
    this.#since(doc, told, (line) => {
      if (codeOf(line) !== 0 || !wanted()) return answer(line);
      const { deltas, rev } = JSON.parse(line.toString());
      let found = this.#docs.get(doc);
      if (found !== undefined && found.first > rev + 1) {
        // the ring has gone on meanwhile
        return tries < MOST_TRIES ? this.join(subscription, answer, wanted, asker, tries + 1) : answer(REFUSAL.TooOld);
      }
      if (found === undefined) {
        found = { rev, first: rev + 1, ring: [], bytes: 0, subscriptions: new Set(), taken: new Map() };
        this.#docs.set(doc, found);
        if (this.#follower.isOpen) this.#subscribe(doc, found); // else as the session begins
      }
      found.subscriptions.add(subscription);
      subscription.backlog = deltas.map((ops, index) => Buffer.from(JSON.stringify({ doc, news: told + 1 + index, ops }) + "\n"));
      for (const { length } of subscription.backlog) subscription.backlogBytes += length;
      answer(reply);
    }, wanted, asker);
  }

  /** @param {Subscription} subscription */
  leave(subscription) {
    const entry = this.#docs.get(subscription.doc);
    if (!entry?.subscriptions.delete(subscription) || entry.subscriptions.size > 0) return;
    this.#docs.delete(subscription.doc);
    this.#kept.bytes -= entry.bytes;
    if (this.#follower.isOpen) this.#follower.ask({ do: "unsubscribe", doc: subscription.doc }, () => {}, () => false);
  }

  /**
   * The lines of the ring above a revision, up to another; null where the ring has them no more.
   * @param {Subscription} subscription
   * @param {number} last
   * @returns {Buffer[] | null}
   */
  linesFor({ doc, told, hasEnded }, last) {
    const entry = this.#docs.get(doc);
    if (hasEnded || entry === undefined || told + 1 < entry.first) return null;
    return entry.ring.slice(told + 1 - entry.first, Math.max(0, Math.min(last, entry.rev) + 1 - entry.first));
  }

  /**
   * A command was taken: its news is to come soon.
   * @param {string} doc
   * @param {Buffer} reply
   */
  taken(doc, reply) {
    const entry = this.#docs.get(doc);
    if (entry === undefined) return;
    const rev = revOf(reply);
    if (rev <= entry.rev) return this.#onLag(0);
    if (entry.taken.size < MOST_TAKEN) entry.taken.set(rev, performance.now());
    this.#poke();
  }

  #poke() {
    this.#wantsPoke = true;
    if (this.#isPoked || !this.#follower.isOpen) return;
    this.#wantsPoke = false;
    this.#isPoked = true;
    this.#follower.ask(POKE, () => {
      this.#isPoked = false;
      if (this.#wantsPoke) setImmediate(() => this.#poke());
    }, () => false);
  }

  #subscribe(doc, entry) {
    const isRefused = (line) => codeOf(line) !== 0 && this.#docs.get(doc) === entry && this.#end(doc, entry);
    this.#follower.ask({ do: "subscribe", doc, rev: entry.rev }, isRefused, () => false);
  }

  #take(doc, rev, line) {
    const entry = this.#docs.get(doc);
    if (entry === undefined) return;
    if (rev === null) return this.#end(doc, entry);
    if (rev !== entry.rev + 1) return; // of an older subscription
    entry.rev = rev;
    entry.ring.push(Buffer.from(line)); // not a part of what was read, which would be held with it
    entry.bytes += line.length;
    this.#kept.bytes += line.length;
    if (entry.ring.length > MOST_LINES || (entry.bytes > MOST_BYTES && entry.ring.length > 1)) this.#shorten(entry);
    const began = entry.taken.get(rev);
    if (began !== undefined) this.#onLag(performance.now() - began);
    entry.taken.delete(rev);
    if (this.#fresh.size === 0) queueMicrotask(() => this.#tell()); // once, for all that came together
    this.#fresh.add(entry);
  }

  // Too much is kept of all documents together: the older half of those of which most is kept goes.
  #shed() {
    while (this.#kept.bytes > SHED * this.#kept.most) {
      let largest;
      for (const entry of this.#docs.values()) if (entry.bytes > (largest?.bytes ?? 0)) largest = entry;
      if (largest === undefined) return; // it is another store's
      this.#shorten(largest);
    }
  }

  #shorten(entry) {
    const gone = entry.ring.splice(0, (entry.ring.length + 1) >> 1);
    entry.first += gone.length;
    for (const { length } of gone) {
      entry.bytes -= length;
      this.#kept.bytes -= length;
    }
    for (const rev of entry.taken.keys()) if (rev < entry.first) entry.taken.delete(rev);
  }

  #tell() {
    const entries = [...this.#fresh];
    this.#fresh.clear();
    for (const { subscriptions } of entries) for (const subscription of subscriptions) subscription.onNews(subscription);
    if (this.#kept.bytes > this.#kept.most) this.#shed();
  }

  #end(doc, entry) {
    this.#docs.delete(doc);
    this.#kept.bytes -= entry.bytes;
    for (const subscription of entry.subscriptions) {
      subscription.hasEnded = true;
      subscription.onNews(subscription);
    }
  }
}
