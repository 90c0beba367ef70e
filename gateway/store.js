// One store: a fixed share of its sessions, over which the messages of all browsers go.

import { codeOf, revOf, REFUSAL } from "./messages.js";
import { News } from "./news.js";
import { Turns } from "./turns.js";
import { Command, Upstream } from "./upstream.js";

const MOST_SINCE = 1_000; // revisions that are asked for at once: a reply is held whole
const IDLE = 60_000; // milliseconds after which a guest's session is closed
const NO_DOCUMENT = 6;
const FUTURE = 12;
const DELETED = 40;
const MOST_READING = 2; // reads of older revisions that are asked for at once
const MOST_STALE = 100; // times that a read is asked again which is older than an own command
const STALE_PAUSE = 10; // milliseconds
const READ_PAUSE = 50; // milliseconds until it is looked again whose reads may be asked for
/** Stands for a document that is longer than `lineBytes`: it has to be asked for in pieces. */
export const TOO_LONG = Buffer.from(REFUSAL.NoMemory);
const MOST_LONG = 1_000; // documents of which it is known that they are so long
const WHOLE = 1 << 16; // bytes of a document that isn't passed on in pieces after all
const LOOK = 20; // milliseconds until it is looked again whether pieces are taken
const PASSING = 60_000; // milliseconds that this may take while others wait for it

/**
 * @typedef {object} Waiter  a message that waits for a name
 * @property {string} user
 * @property {() => boolean} isWanted
 * @property {() => Promise<boolean>} isServed  asks again
 */

/**
 * @typedef {object} Asker  whose read it is
 * @property {string} user
 * @property {import("./users.js").Account[]} accounts  what it takes of a session's time is theirs
 * @property {(account: import("./users.js").Account, limit: string, seconds: number) => void} hold  his reads wait, as an account has taken too much
 */

/**
 * @typedef {object} Taker  who gets a document in pieces
 * @property {() => boolean} wanted
 * @property {(bytes: Buffer) => void} take
 * @property {() => boolean} isBehind  whether he is to get nothing just now
 * @property {() => void} tooSlow  he has taken too long
 * @property {(line: Buffer | null) => void} settle  with the last bytes, or a reply that is no long document; null where it is cut short
 */

/**
 * The sessions of one store:
 * - readers: one for fetches, and where there are two another for `since` and for older revisions, which may be slow;
 * - news: one that follows;
 * - writers: one for each of the first names of the pool, always open;
 * - a guest's place for documents that are too long to be held, one at a time, by turns of users; it is open as it is needed;
 * - guests: at most so many, for the pool's other names and for those that other gateways have lent. One is opened as it is needed, and closed
 *   where another name needs its place, or after a minute.
 */
export class Store {
  #address;
  #prefix;
  #most;
  #metrics;
  #log;
  #limits;
  #readers;
  /** @type {Map<string, Upstream>} */
  #writers = new Map();
  /** @type {Map<string, { session: Upstream, used: number }>} in the order in which they were used last */
  #guests = new Map();
  /** @type {Turns<{ name: string, command: Command }>} commands that wait for a guest's place */
  #queue = new Turns();
  #longDocuments = new Set();
  /** @type {Turns<{ message: any, least: number, taker: Taker }>} fetches of long documents */
  #passes = new Turns();
  /** @type {{ session: Upstream, used: number, bytes: number, taker?: Taker } | undefined} the session over which they go */
  #lane;
  /** @type {Map<string, Turns<Waiter>>} document -> messages that wait for a name */
  #names = new Map();
  #isNaming = false;
  /** @type {Turns<{ asker: Asker, wanted: () => boolean, ask: (done: (settle: (line: Buffer) => void, line: Buffer) => void) => void }>} */
  #older = new Turns(); // reads of older revisions
  #reading = 0; // of them that are asked
  #readAt = 0; // when the last one had its reply
  #readerCuts = 0; // of sessions that read
  #readTimer;
  #timer;

  #onCut = () => (this.#metrics.cuts += 1);
  // what each of its sessions tells
  #listener = {
    onCut: this.#onCut,
    onGarbage: (what) => {
      this.#metrics.count("garbage_total", { from: "store" });
      this.#log("a store sends garbage", { store: this.name, what });
    },
    onFault: (error) => {
      this.#metrics.count("faults_total");
      this.#log("a fault of the gateway", { store: this.name, error: error.stack });
    },
  };

  /**
   * @param {{ name: string, host: string, port: number, new?: boolean }} address
   * @param {{ prefix: string, readers: number, guests: number, leases: any, metrics: import("./metrics.js").Metrics,
   *   log: (event: string, about?: object) => void, limits: { lineBytes: number, newsBytes: number }, kept: import("./news.js").Kept }} options
   *   `prefix` is that of this gateway's own sessions
   */
  constructor({ name, host, port, new: takesNew = true }, { prefix, readers, guests, leases, metrics, log, limits, kept }) {
    this.name = name;
    this.takesNew = takesNew;
    this.leases = leases;
    this.#address = { host, port };
    this.#prefix = prefix;
    this.#most = guests;
    this.#metrics = metrics;
    this.#log = log;
    this.#limits = limits;
    const onOpen = () => log("a store is there", { store: name });
    const onReaderCut = () => {
      this.#onCut();
      this.#readerCuts += 1;
    };
    const onCut = () => {
      onReaderCut();
      log("a store is away", { store: name });
    };
    const first = new Upstream(this.#address, `${prefix}-reader`, { ...this.#listener, onOpen, onCut });
    const second = () => new Upstream(this.#address, `${prefix}-reader2`, { ...this.#listener, onCut: onReaderCut });
    this.#readers = [first, ...Array.from({ length: readers - 1 }, second)];
    const since = (doc, rev, settle, wanted, asker) => this.since(doc, rev, settle, wanted, asker);
    const onLong = (doc) => log("news of a document are longer than newsBytes", { store: name, doc });
    this.news = new News(this.#address, `${prefix}-news`, since, { ...this.#listener, onLong, mostNews: limits.newsBytes, kept, onLag: (lag) => metrics.lag.add(lag) });
    this.#timer = setInterval(() => this.#closeIdle(), IDLE / 4);
    this.#timer.unref();
  }

  get isOpen() {
    return this.#readers[0].isOpen;
  }

  /** Opens the sessions that write, once their names are known. @param {string[]} names */
  openWriters(names) {
    for (const name of names) this.#writers.set(name, new Upstream(this.#address, name, this.#listener));
  }

  /** How many users wait for a guest's place. */
  get waiting() {
    return this.#queue.users;
  }

  /** How many sessions of each kind are open. */
  get open() {
    const count = (sessions) => sessions.filter(({ isOpen }) => isOpen).length;
    const guests = [...this.#guests.values()].map(({ session }) => session);
    const lanes = this.#lane === undefined ? [] : [this.#lane.session];
    return { reader: count(this.#readers), news: count([this.news]), writer: count([...this.#writers.values()]), guest: count([...guests, ...lanes]) };
  }

  /**
   * Fetches; again where what comes is older than what this browser has changed. TOO_LONG is given where it has to be passed on in pieces.
   * @param {any} message
   * @param {number} least  the revision that it has to have, 0 where it may have any
   * @param {(line: Buffer) => void} settle
   * @param {() => boolean} wanted
   * @param {Asker} asker
   */
  fetch(message, least, settle, wanted, asker) {
    if (this.#longDocuments.has(message.doc)) return settle(TOO_LONG);
    const answer = (line) => {
      if (line === TOO_LONG) this.#noteLong(message.doc);
      settle(line);
    };
    const bound = { most: this.#limits.lineBytes, instead: TOO_LONG };
    if (message.rev === undefined) return this.#askUpTo(this.#readers[0], message, least, answer, wanted, bound);
    this.#readOlder(asker, wanted, (done) => this.#readers.at(-1).ask(message, (line) => done(answer, line), wanted, bound));
  }

  #noteLong(doc) {
    this.#log("a document is longer than lineBytes, and is passed on in pieces", { store: this.name, doc });
    this.#longDocuments.add(doc);
    if (this.#longDocuments.size > MOST_LONG) this.#longDocuments.delete(this.#longDocuments.values().next().value);
  }

  /**
   * Fetches a document that is too long to be held: it is passed on in pieces, as fast as they are taken.
   * @param {any} message
   * @param {number} least  the revision that it has to have, 0 where it may have any
   * @param {string} user
   * @param {Taker} taker
   */
  pass(message, least, user, taker) {
    this.#passes.add(user, { message, least, taker });
    this.#servePasses();
  }

  #servePasses() {
    if (this.#passes.isEmpty || this.#lane?.taker !== undefined || (this.#lane === undefined && !this.#makesRoom())) return;
    const item = this.#passes.next(() => true);
    if (!item.taker.wanted()) return setImmediate(() => this.#servePasses());
    const { message, least, taker } = item;
    this.#lane ??= { session: new Upstream(this.#address, `${this.#prefix}-long`, this.#listener), used: 0, bytes: 0 };
    const lane = this.#lane;
    Object.assign(lane, { taker, used: performance.now(), bytes: 0 });
    const ask = () => lane.session.ask(message, (line) => {
      if (lane.taker !== taker) return;
      if (line !== null && lane.bytes + line.length <= this.#limits.lineBytes) this.#longDocuments.delete(message.doc);
      this.#endPass(lane);
      taker.settle(line);
    }, taker.wanted, { most: WHOLE, pass: (bytes) => lane.taker === taker && this.#passOn(lane, bytes) });
    this.#metrics.count("passed_total");
    this.#untilThere(lane.session, message, least, taker, ask);
  }

  // Waits until the store's reads have a revision: where they haven't, `since` is refused by Future.
  #untilThere(session, { doc, rev }, least, { wanted }, then, tries = 0) {
    if (rev !== undefined || least === 0) return then();
    session.ask({ do: "since", doc, rev: least }, (answer) => {
      if (codeOf(answer) !== FUTURE || tries === MOST_STALE) return then();
      this.#metrics.stale += 1;
      setTimeout(() => this.#untilThere(session, { doc, rev }, least, { wanted }, then, tries + 1), STALE_PAUSE);
    }, wanted, { most: this.#limits.newsBytes, instead: REFUSAL.TooOld });
  }

  #passOn(lane, bytes) {
    const { session, taker } = lane;
    if (!taker.wanted()) return this.#dropLane(lane);
    lane.bytes += bytes.length;
    taker.take(bytes);
    if (!taker.isBehind()) return;
    session.pause();
    const look = () => {
      if (lane.taker !== taker) return;
      if (!taker.wanted()) return this.#dropLane(lane);
      if (!taker.isBehind()) return session.resume();
      if (!this.#passes.isEmpty && performance.now() - lane.used > PASSING) taker.tooSlow();
      setTimeout(look, LOOK).unref();
    };
    look();
  }

  #endPass(lane) {
    Object.assign(lane, { taker: undefined, used: performance.now() });
    setImmediate(() => {
      this.#servePasses();
      this.#serveGuests();
    });
  }

  // Nobody wants the rest of what is passed on.
  #dropLane(lane) {
    this.#endPass(lane);
    lane.session.end();
    if (this.#lane === lane) this.#lane = undefined;
  }

  // What a store has to make of its past may take long: users take turns at it, few are asked for at once, and each has a share of a session's time.
  #readOlder(asker, wanted, ask) {
    this.#older.add(asker.user, { asker, wanted, ask });
    this.#serveReads();
  }

  #serveReads() {
    while (this.#reading < MOST_READING) {
      const read = this.#older.next(({ asker, wanted }) => !wanted() || asker.accounts.every(({ reading }) => reading.owed === 0));
      if (read === undefined) return this.#readLater();
      if (!read.wanted()) continue;
      this.#reading += 1;
      const count = this.#counter(read.asker.accounts);
      read.ask((settle, line) => {
        this.#reading -= 1;
        count();
        setImmediate(() => this.#serveReads());
        settle(line);
      });
    }
  }

  // Counts the time from now on, but for what belongs to the read before, and for a time in which the store wasn't there.
  #counter(accounts) {
    const began = performance.now();
    const isThere = this.#readers.at(-1).isOpen;
    const cuts = this.#readerCuts;
    return () => {
      const now = performance.now();
      const taken = isThere && cuts === this.#readerCuts ? now - Math.max(began, this.#readAt) : 0;
      this.#readAt = now;
      for (const { reading } of accounts) reading.take(taken);
    };
  }

  #readLater() {
    for (const { asker: { accounts, hold } } of this.#older.first()) {
      for (const account of accounts) if (account.reading.owed > 0) hold(account, "Reading", account.reading.owed);
    }
    if (this.#older.isEmpty) return;
    this.#readTimer ??= setTimeout(() => {
      this.#readTimer = undefined;
      this.#serveReads();
    }, READ_PAUSE).unref();
  }

  /**
   * What came after a revision, where that are a thousand revisions at most, and `newsBytes`. Whether it is more is asked first, by a fetch of one that isn't
   * there yet: it is refused by Future.
   * @param {string} doc
   * @param {number} rev
   * @param {(line: Buffer) => void} settle
   * @param {() => boolean} wanted
   * @param {Asker} asker
   * @param {number} [least]
   */
  since(doc, rev, settle, wanted, asker, least = 0) {
    const reader = this.#readers.at(-1);
    const beyond = rev + MOST_SINCE + 1;
    const message = { do: "since", doc, rev };
    const tooOld = { most: this.#limits.newsBytes, instead: REFUSAL.TooOld };
    this.#readOlder(asker, wanted, (done) => {
      if (!Number.isSafeInteger(beyond)) return reader.ask(message, (line) => done(settle, line), wanted);
      reader.ask({ do: "fetch", doc, rev: beyond }, (answer) => {
        const code = codeOf(answer);
        if (code === 0) done(settle, REFUSAL.TooOld);
        else if (code !== FUTURE) done(settle, answer);
        else this.#askUpTo(reader, message, least, (line) => done(settle, line), wanted, tooOld);
      }, wanted, tooOld);
    });
  }

  /**
   * Whether a document is there. A `since` of the last revision that may be asked for is refused in any case, and says so.
   * @param {string} doc
   * @param {() => boolean} wanted
   * @returns {Promise<"there" | "deleted" | "nowhere">}
   */
  async standing(doc, wanted) {
    const message = { do: "since", doc, rev: Number.MAX_SAFE_INTEGER };
    const code = await new Promise((resolve) => this.#readers[0].ask(message, (answer) => resolve(codeOf(answer)), wanted));
    if (code === FUTURE || code === 0) return "there";
    if (code === DELETED) return "deleted";
    if (code === NO_DOCUMENT) return "nowhere";
    throw new Error(`the store answers ${code}`);
  }

  #askUpTo(reader, message, least, settle, wanted, bound, tries = 0) {
    reader.ask(message, (answer) => {
      if (!(revOf(answer) < least) || codeOf(answer) !== 0 || tries === MOST_STALE) return settle(answer);
      this.#metrics.stale += 1;
      setTimeout(() => this.#askUpTo(reader, message, least, settle, wanted, bound, tries + 1), STALE_PAUSE);
    }, wanted, bound);
  }

  /**
   * Sends a command under a name. It may still wait then, by turns of users; `settle` is told as by a `Command`.
   * @param {string} user
   * @param {string} name
   * @param {any} message
   * @param {(line: Buffer | null | undefined) => void} settle
   */
  command(user, name, message, settle) {
    const command = new Command(message, settle);
    const writer = this.#writers.get(name);
    if (writer !== undefined) {
      writer.command(command);
      return command;
    }
    this.#queue.add(user, { name, command });
    this.#serveGuests();
    return command;
  }

  /**
   * Has a message wait for a name in a document, by turns of users.
   * @param {string} user
   * @param {string} doc
   * @param {Waiter} waiter
   */
  waitForName(user, doc, waiter) {
    this.#metrics.count("name_waits_total");
    this.#log("a message waits for a name", { store: this.name, doc, user });
    if (!this.#names.has(doc)) this.#names.set(doc, new Turns());
    this.#names.get(doc).add(user, waiter);
  }

  /** Looks whether there are names for those who wait. */
  async serveNames() {
    if (this.#isNaming) return;
    this.#isNaming = true;
    for (const [doc, turns] of this.#names) {
      // one of each user is looked at, and again those who got one
      for (let tries = turns.users; tries > 0 && !turns.isEmpty; tries -= 1) {
        const waiter = turns.next(() => true);
        if (!waiter.isWanted() || (await waiter.isServed().catch(() => false))) continue;
        turns.add(waiter.user, waiter);
      }
      if (turns.isEmpty) this.#names.delete(doc);
    }
    this.#isNaming = false;
  }

  end() {
    clearInterval(this.#timer);
    this.#passes = new Turns();
    this.#lane?.session.end();
    clearTimeout(this.#readTimer);
    this.#queue = new Turns();
    this.news.end();
    for (const session of [...this.#readers, ...this.#writers.values()]) session.end();
    for (const { session } of this.#guests.values()) session.end();
  }


  // Gives what waits to the sessions of its names, as far as there is room for them.
  #serveGuests() {
    for (;;) {
      const item = this.#queue.next(({ name, command }) => !command.isWanted || this.#hasRoom(name));
      if (item === undefined) return;
      if (item.command.isWanted) this.#guest(item.name).command(item.command);
      else item.command.settle(undefined);
    }
  }

  // While several users wait a guest gets nothing new until it is idle, so that its place may be another's.
  #hasRoom(name) {
    const found = this.#guests.get(name);
    if (found !== undefined) return found.session.isIdle || this.#queue.users === 1;
    return this.#taken < this.#most || this.#idle !== undefined || this.#isLaneIdle;
  }

  // How many places of guests are taken.
  get #taken() {
    return this.#guests.size + (this.#lane === undefined ? 0 : 1);
  }

  get #isLaneIdle() {
    return this.#lane !== undefined && this.#lane.taker === undefined;
  }

  // Whether there is a guest's place, which may have been an idle one's.
  #makesRoom() {
    if (this.#taken < this.#most) return true;
    if (this.#idle !== undefined) this.#close(this.#idle);
    else if (this.#isLaneIdle) this.#closeLane();
    else return false;
    return true;
  }

  get #idle() {
    return [...this.#guests].find(([, { session }]) => session.isIdle)?.[0];
  }

  #guest(name) {
    const found = this.#guests.get(name);
    if (found !== undefined) this.#guests.delete(name);
    else this.#makesRoom();
    const session = found?.session ?? new Upstream(this.#address, name, { ...this.#listener, onIdle: () => this.#onIdle() });
    this.#guests.set(name, { session, used: performance.now() });
    return session;
  }

  #onIdle() {
    if (!this.#queue.isEmpty) setImmediate(() => this.#serveGuests());
    if (!this.#passes.isEmpty) setImmediate(() => this.#servePasses());
  }

  #close(name) {
    this.#guests.get(name).session.end();
    this.#guests.delete(name);
  }

  #closeLane() {
    this.#lane.session.end();
    this.#lane = undefined;
  }

  #closeIdle() {
    if (this.#isLaneIdle && performance.now() - this.#lane.used > IDLE) this.#closeLane();
    for (const [name, { session, used }] of this.#guests) if (session.isIdle && performance.now() - used > IDLE) this.#close(name);
  }
}
