// A browser's virtual session: its lines, answered as a session of its own at the store would answer them. Messages stand in a row, each with
// its reply once that is there, and replies leave from the row's head alone.

import { CODE } from "./codes.js";
import { MOST_LINE, KIND, PROBE, REFUSAL, codeOf, isAgain, readMessage, revOf } from "./messages.js";
import { Subscription, endedLine } from "./news.js";
import { TOO_LONG } from "./store.js";
import { MOST_OWED, nameOf } from "./users.js";

const MOST_WAITING = 64; // messages without a reply; then no more are read
const MOST_READS = 8; // reads that are asked at the same time; one where a reply was large
const LARGE_REPLY = 1 << 18; // bytes
const MOST_BUFFERED = 1 << 20; // bytes that the browser hasn't taken; then it gets no news and no reads are asked
const MOST_OWN = 1_000; // documents of which the last own revision is known
const LATER = 50; // milliseconds until a browser that took too little is looked at again
const PATIENCE = 10_000; // milliseconds that a message waits for a store that isn't there, then it is to be sent again
const FRAME = 64; // bytes beside a line that count as its own: its end, and a frame's head
const PIECE = 1_024; // bytes for which a message counts that ends no line, and a ping
const SHORT_FAREWELL = 1_000; // where nothing more of it is read
const FAREWELL = 5_000; // milliseconds that a browser has to answer the end
const MOST_PIECES = 1_000; // of a line, that are held one by one
const LARGE = 65_536; // bytes of a line that is sent by itself
const HELLO = Buffer.from('{"gateway":1,"ok":"hello"}\n');
const EMPTY = Buffer.alloc(0);
const FULL_STORE = 20;
const NOT_ALLOWED = 60;
const NO_DOCUMENT = 6;
const EXISTS = 7;
const NOT_MADE = [3, 4, EXISTS, 9, 14, 15, 16, 17, FULL_STORE]; // a creation that is refused so used no number
const UNKNOWN = [21, 22]; // a command that is refused so may have been taken

/**
 * @typedef {object} Slot  a message in the row
 * @property {string} kind
 * @property {any} [message]
 * @property {number} [bytes]  of the message, and of its reply
 * @property {Buffer} [reply]
 * @property {boolean} [isAllowed]
 * @property {boolean} [needsLease]  its holder may have a new lease in its document
 * @property {boolean} [isNew]  it creates a document that is nowhere
 * @property {boolean} [isCounted]  among its user's creations
 * @property {() => void} [undo]  takes back what was written before it is sent
 * @property {boolean} [waitsForName]
 * @property {import("./users.js").Account} [full]  it waits, as this one is told of as many documents as it may be
 * @property {boolean} [isRoom]  it counts as a document that its session is told of, until it is delivered
 * @property {boolean} [isAsking]  something is found out before it can be sent
 * @property {boolean} [isSent]  to the sessions of a store, where it may still wait
 * @property {{ isSent: boolean, isWanted: boolean }} [ticket]
 * @property {boolean} [isLong]  its reply is too long to be held: it comes in pieces, once this message stands first
 * @property {boolean} [isPassed]  its reply has been given, but for its last bytes
 * @property {number} [since]
 * @property {{ subscription: Subscription, news: import("./news.js").News }} [followed]
 */

export class Browser {
  #gateway;
  #socket;
  #given;
  #unread = EMPTY;
  /** @type {Buffer[]} what has come since, of a line that isn't whole */
  #pieces = [];
  #pieceBytes = 0;
  #begun = 0; // bytes that have come of a line that isn't whole
  #skips = false; // the rest of a line that is too long
  /** @type {Slot[]} */
  #slots = [];
  #open = new Map(); // doc -> how many messages of it have no reply
  #own = new Map(); // doc -> the revision of the last own command that was answered
  /** @type {Map<string, { subscription: Subscription, news: import("./news.js").News }>} */
  #followed = new Map();
  #judgedAt = new Map(); // doc -> when the right to read it was asked for last
  #written = new Set(); // documents with a lease
  /** @type {Slot | undefined} the message whose reply is given in pieces just now */
  #passing;
  /** @type {Buffer[]} lines that come behind that */
  #behind = [];
  /** @type {Buffer[]} */
  #out = [];
  #outBytes = 0;
  #readsAtOnce = MOST_READS;
  #givenBytes = 0;
  #taken = 0; // of them, at the last look
  #isAlive = true;
  #wasSlow = false; // at the last look
  #accounts;
  #rooms = 0; // documents that it is told of, or asks to be, as its accounts have them
  #asksRooms = 0; // of them, that it asks to be told of
  #isOwing = false;
  #holder;
  #isPumping = false;
  #isPumpDue = false;
  #isEnding = false;
  #timer;

  #slotBytes = 0; // of the messages in the row, and of their replies
  #backlogBytes = 0; // of news that wait behind a subscription

  isGone = false;
  waiting = 0; // bytes, at the last count
  sent = 0; // bytes and messages of late: those of a second ago count half

  /**
   * @param {any} gateway  what the gateway has for its browsers, see gateway.js
   * @param {any} socket
   * @param {import("./users.js").User} user
   * @param {any} given  the user as `authorize` gave him for this session
   * @param {number} id
   * @param {import("./users.js").Address} address
   */
  constructor(gateway, socket, user, given, id, address) {
    this.#gateway = gateway;
    this.#socket = socket;
    this.user = user;
    this.#given = given;
    this.id = id;
    this.#accounts = [user, address];
    for (const account of this.#accounts) account.browsers.add(this);
    this.asker = { user: user.id, accounts: this.#accounts, hold: (account, limit, seconds) => this.#hold(account, limit, seconds) };
    socket._socket?.prependListener("data", this.#guarded((bytes) => this.#weigh(bytes.length)));
    socket.on("message", this.#guarded((bytes) => this.#read(bytes)));
    socket.on("ping", this.#guarded(() => this.#charge()));
    socket.on("pong", this.#guarded(() => (this.#isAlive ? this.#charge() : (this.#isAlive = true))));
    socket.on("close", this.#guarded(() => this.#leave()));
    socket.on("error", () => {}); // its close follows
  }

  // A call whose fault ends this session, and nothing else.
  #guarded(act) {
    return (...words) => {
      try {
        return act(...words);
      } catch (error) {
        this.#gateway.fault(error, { user: this.user.id });
        this.#fail();
      }
    };
  }

  #fail() {
    try {
      this.close(CODE.fault, "a fault of the gateway");
    } catch {
      this.#socket.terminate();
    }
  }

  /** Its user's name, as others see it. */
  get shownName() {
    return nameOf(this.#given);
  }

  /** Whether it has so much to take that it gets nothing unasked, or is in the middle of a line. */
  get isSlow() {
    return this.#hasMuch || this.#passing !== undefined;
  }

  get #hasMuch() {
    return this.#socket.bufferedAmount > MOST_BUFFERED;
  }

  /** Gives it lines besides its replies. @param {Buffer} lines */
  say = this.#guarded((lines) => {
    if (this.isGone) return;
    this.#give(lines);
    this.#flush();
  });

  /** Ends it now. @param {number} code @param {string} why */
  close(code, why) {
    if (this.isGone) return;
    this.#flush();
    this.#leave();
    if (this.#hasMuch) return this.#socket.terminate(); // its farewell would stand behind what it doesn't take, and hold that
    const isFlood = code === CODE.over; // nothing more of it is read, its farewell neither
    if (isFlood) this.#socket.pause();
    else if (this.#socket.isPaused) this.#socket.resume(); // else its farewell isn't read
    this.#socket.close(code, why);
    setTimeout(() => this.#socket.terminate(), isFlood ? SHORT_FAREWELL : FAREWELL).unref();
  }

  /** Counts the bytes that wait for it. */
  count() {
    if (this.isGone) return;
    const bytes = this.#socket.bufferedAmount + this.#outBytes + this.#slotBytes + this.#backlogBytes + this.#unread.length + this.#pieceBytes;
    this.#gateway.waiting.note(this, bytes);
  }

  /** Ends it, as more waits for it than there is room for. */
  closeAsSlow = this.#guarded(() => {
    if (this.isGone) return;
    this.#gateway.metrics.count("overfull_total");
    this.#gateway.log("too much waits for browsers, so the slowest is closed", { user: this.user.id, bytes: this.waiting });
    this.#out = []; // what it doesn't get anyway
    this.#outBytes = 0;
    this.close(CODE.later, "too much waits for you");
  });

  /** Ends it once its commands that were sent are answered. No others are sent. */
  finish() {
    this.#isEnding = true;
    for (const { ticket } of this.#slots) if (ticket !== undefined) ticket.isWanted = false;
    this.#pump();
  }

  /** Looks whether it is there: it has answered the last ping, or taken bytes since the last look. */
  look = this.#guarded(() => {
    const taken = this.#givenBytes - this.#socket.bufferedAmount;
    const isSilent = !this.#isAlive && !this.#socket.isPaused; // its pong isn't read while no more messages are
    const isStuck = this.#hasMuch && this.#wasSlow;
    if (taken <= this.#taken && (isSilent || isStuck)) {
      if (isStuck) this.#gateway.metrics.slow += 1;
      return this.#socket.terminate();
    }
    this.#taken = taken;
    this.#wasSlow = this.#hasMuch;
    this.#isAlive = false;
    this.#socket.ping();
  });

  /** Has it send again what waits too long for a store. */
  giveUpWaiting = this.#guarded(() => {
    const now = performance.now();
    let hasGivenUp = false;
    for (const slot of this.#slots) {
      const { reply, ticket, kind, full } = slot;
      if (full !== undefined && now - slot.since > full.patience) return this.closeAsOver(full.nameOf("Documents"));
      if (full !== undefined || slot === this.#passing || reply !== undefined || !(now - slot.since > PATIENCE) || (kind === "command" && ticket?.isSent)) continue;
      if (ticket !== undefined) ticket.isWanted = false;
      slot.reply = REFUSAL.NoMemory;
      slot.undo?.();
      if (ticket === undefined) this.#uncount(slot, false);
      hasGivenUp = true;
    }
    if (hasGivenUp) this.#pump();
  });

  /**
   * Asks for its rights again, where it is told of a document: what its user may no longer read ends by 60.
   * @param {number} before  those that were asked for last before this time
   * @param {string} [only]  one document alone
   */
  judgeAgain = this.#guarded((before, only) => {
    const told = new Set([...this.#followed.keys(), ...this.#gateway.presence.docsOf(this)]);
    for (const doc of this.#judgedAt.keys()) if (!told.has(doc)) this.#judgedAt.delete(doc);
    for (const doc of told) {
      if ((only ?? doc) !== doc) continue;
      if (!this.#judgedAt.has(doc)) this.#judgedAt.set(doc, performance.now());
      if (this.#judgedAt.get(doc) > before) continue;
      this.#judgedAt.set(doc, performance.now() + PATIENCE); // until it is known; where no answer comes it is asked again
      this.#gateway.mayRead(this.#given, doc).then(this.#guarded((may) => {
        this.#judgedAt.set(doc, performance.now());
        if (!may && !this.isGone) this.#endDocument(doc);
      }), (error) => {
        this.#judgedAt.set(doc, performance.now());
        this.#gateway.log("rights can't be asked for again now", { user: this.user.id, doc, error: error?.message });
      });
    }
  });

  /** What it waits for and isn't sent is judged anew, and what it was given nothing of yet. @param {string} [only] */
  judgeWaiting = this.#guarded((only) => {
    for (const slot of this.#slots) {
      const { message, kind, ticket } = slot;
      const isRead = kind === "fetch" || kind === "since";
      if (message === undefined || (only ?? message.doc) !== message.doc || (!isRead && (ticket?.isSent || slot.reply !== undefined))) continue;
      if (isRead && slot.reply !== undefined && codeOf(slot.reply) !== 0) continue;
      this.#gateway.mayDo(this.#given, message.doc, message.do).then(this.#guarded((may) => {
        if (!may && slot === this.#passing) return this.close(CODE.rights, "the rights have changed");
        if (may || (!isRead && (slot.reply !== undefined || slot.ticket?.isSent))) return;
        if (slot.ticket !== undefined) slot.ticket.isWanted = false;
        slot.followed?.news.leave(slot.followed.subscription);
        slot.followed = undefined;
        slot.reply = REFUSAL.NotAllowed;
        slot.undo?.();
        this.#pump();
      }), () => {});
    }
  });

  #endDocument(doc) {
    this.#gateway.metrics.count("rights_ended_total");
    this.#gateway.log("a user may no longer read what he is told of", { user: this.user.id, doc });
    this.#gateway.presence.end(this, doc);
    this.#countRooms();
    if (!this.#followed.has(doc)) return;
    this.#give(endedLine(doc, NOT_ALLOWED));
    this.#unfollow(doc);
    this.#flush();
  }

  // How many documents it is told of, or asks to be, has changed.
  #countRooms() {
    const rooms = this.isGone ? 0 : this.#followed.size + this.#gateway.presence.countOf(this) + this.#asksRooms;
    for (const account of this.#accounts) account.documents += rooms - this.#rooms;
    this.#rooms = rooms;
  }

  // All bytes of its connection count, those of pings and of a message's pieces too. Those of a line that is whole are given back to what isn't lines.
  #weigh(bytes) {
    if (this.isGone) return;
    this.sent += bytes;
    for (const account of this.#accounts) account.weigh(bytes);
    if (this.#isOwing || this.#accounts.every(({ debt }) => debt.seconds === 0)) return;
    this.#isOwing = true;
    this.#socket.pause(); // at once: a connection is read many times before anything else is looked at
    setImmediate(this.#settleDebt, true); // once the lines among them are read
  }

  // A message that ends no line, and a ping, cost more than their bytes.
  #charge() {
    if (this.isGone) return;
    this.sent += PIECE;
    for (const { overhead } of this.#accounts) overhead.take(PIECE);
    if (this.user.owesMuch) this.closeAsOver(this.user.nameOf(this.user.debt.limit)); // at once: many come together
  }

  // Whose user or address owes isn't read until that is over. Where it takes too long it is closed, or who sends most from that address.
  #settleDebt = this.#guarded(() => {
    if (!this.isGone) this.#pump(); // what has come already
    if (this.isGone) return;
    const debts = this.#accounts.map((account) => ({ account, ...account.debt }));
    const { account, limit, seconds } = debts.reduce((one, other) => (other.seconds > one.seconds ? other : one));
    this.#isOwing = seconds > 0;
    if (!this.#isOwing) return this.#pump();
    if (seconds > MOST_OWED) (account === this.user ? this : account.greedy).closeAsOver(account.nameOf(limit));
    if (this.isGone) return;
    this.#socket.pause();
    setTimeout(this.#settleDebt, Math.max(LATER, 1_000 * Math.min(seconds, MOST_OWED))).unref();
    this.#hold(account, limit, seconds);
  });

  // It waits for so many seconds, as one of its accounts has taken too much. Where that goes on for too long the one that sends most is closed.
  #hold(account, limit, seconds) {
    const name = account.nameOf(limit);
    const { isFirst, greedy } = account.hold(seconds);
    if (isFirst) this.#tellSlowed(name);
    greedy?.closeAsOver(name);
  }

  #tellSlowed(limit) {
    this.#gateway.metrics.count("slowed_total", { limit });
    this.#gateway.log("a user sends more than he may, and is read later", { user: this.user.id, limit });
  }

  /** Ends it, as it has been above a limit for too long. @param {string} limit */
  closeAsOver(limit) {
    if (this.isGone) return;
    this.#gateway.metrics.count("over_total", { limit });
    this.#gateway.log("a user sends more than he may, and is closed", { user: this.user.id, limit });
    this.close(CODE.over, "more than you may send");
  }

  #read(bytes) {
    if (this.isGone) return;
    this.#pieces.push(bytes);
    this.#pieceBytes += bytes.length;
    const end = bytes.lastIndexOf(10);
    if (end !== -1) this.#giveBack(bytes, end);
    else {
      this.#begun += bytes.length;
      this.#charge();
    }
    if (this.isGone) return;
    const isWhole = end !== -1 || this.#unread.length + this.#pieceBytes > MOST_LINE;
    if (this.#pieces.length >= MOST_PIECES) this.#gather();
    if (isWhole && !this.#socket.isPaused) this.#pump(); // while it is paused the rest of what was read before comes still
  }

  // Bytes of whole lines, as far as those may be long, and of their frame, are none of what is no line.
  #giveBack(bytes, end) {
    const first = bytes.indexOf(10);
    const lines = Math.min(this.#begun + first, MOST_LINE) + end - first + FRAME;
    for (const { overhead } of this.#accounts) overhead.take(-lines);
    this.#begun = bytes.length - end - 1;
  }

  #gather() {
    if (this.#pieces.length === 0) return;
    this.#unread = this.#unread.length === 0 && this.#pieces.length === 1 ? this.#pieces[0] : Buffer.concat([this.#unread, ...this.#pieces]);
    this.#pieces = [];
    this.#pieceBytes = 0;
  }

  // Reads lines, sends what may be sent, gives the replies whose turn it is, until none of it does anything.
  #pump = this.#guarded(() => {
    if (this.#isPumping) {
      this.#isPumpDue = true;
      return;
    }
    this.#isPumping = true;
    do {
      this.#isPumpDue = false;
      this.#readLines();
      const hasGiven = this.#deliver(); // what is asked now has to know the last own revision
      this.#sendWhatMay();
      if ((this.#deliver() || hasGiven) && this.#unread.length > 0) this.#isPumpDue = true;
    } while (this.#isPumpDue && !this.isGone);
    this.#isPumping = false;
    this.#flush();
    this.count();
    if (this.isGone) return;
    if (this.#isEnding && !this.#slots.some(isOnItsWay)) return this.close(CODE.ends, "the gateway ends");
    const waits = this.#isOwing || this.#slots.length >= MOST_WAITING || this.#unread.includes(10);
    if (waits) this.#socket.pause();
    else if (this.#socket.isPaused) this.#socket.resume();
  });

  #readLines() {
    this.#gather();
    while (!this.isGone && !this.#isEnding && this.#slots.length < MOST_WAITING) {
      const at = this.#unread.indexOf(10);
      if (at === -1) break;
      const full = this.#accounts.find(({ messages }) => messages.isEmpty);
      if (full !== undefined) {
        this.#hold(full, "Messages", LATER / 1_000);
        return this.#pumpLater();
      }
      const line = this.#unread.subarray(0, at);
      this.sent += PIECE;
      for (const { messages } of this.#accounts) messages.take(1);
      this.#unread = this.#unread.subarray(at + 1);
      if (this.#skips) this.#skips = false;
      else if (line.length > MOST_LINE) this.#refuse(REFUSAL.LineTooLong);
      else this.#take(line);
    }
    if (this.#unread.length > MOST_LINE && !this.#unread.includes(10)) {
      if (!this.#skips) this.#refuse(REFUSAL.LineTooLong);
      this.#skips = true;
    }
    if (this.#skips && !this.#unread.includes(10)) this.#unread = EMPTY;
  }

  #refuse(reply) {
    this.#slots.push({ kind: "local", reply });
  }

  #take(line) {
    const { message, refusal } = readMessage(line, this.#holder !== undefined);
    if (refusal !== undefined) return this.#refuse(refusal);
    if (message.do === "hello") return this.#greet(message.source);
    /** @type {Slot} */
    const slot = { kind: KIND[message.do], message, since: performance.now(), bytes: line.length };
    this.#slots.push(slot);
    this.#slotBytes += line.length;
    this.#open.set(message.doc, (this.#open.get(message.doc) ?? 0) + 1);
    const verdict = this.#gateway.judge(this.#given, message);
    if (typeof verdict === "boolean") this.#judged(slot, verdict);
    else verdict.then((isAllowed) => this.#judged(slot, isAllowed), () => (slot.reply ??= REFUSAL.NoMemory)).then(() => this.#pump());
  }

  #judged(slot, isAllowed) {
    if (isAllowed) slot.isAllowed = true;
    else slot.reply ??= REFUSAL.NotAllowed;
  }

  // The name that a browser gives is its token. The names that the store sees are lent for each document.
  #greet(token) {
    this.#holder = `${this.user.id}/${token}`; // a token has no stroke
    this.#gateway.arrive(this.#holder, this);
    this.#slots.push({ kind: "local", reply: HELLO });
  }

  // Messages of two kinds don't overtake each other; those of one needn't wait for each other. A caret waits for nothing but its turn.
  #sendWhatMay() {
    let kind;
    let asked = 0;
    for (const slot of this.#slots) {
      if (this.isGone || this.#isEnding) return;
      if (slot.reply !== undefined) continue;
      if (kind !== undefined && slot.kind !== kind && slot.kind !== "presence") return;
      if (!slot.isSent) {
        const isRead = slot.kind === "fetch" || slot.kind === "since";
        if (slot.isLong && slot !== this.#slots[0]) return;
        if (isRead && this.isSlow) return this.#pumpLater();
        if ((isRead && asked >= this.#readsAtOnce) || !slot.isAllowed || slot.isAsking || slot.waitsForName || !this.#send(slot)) return;
      }
      if (slot.reply !== undefined) continue;
      kind = slot.kind;
      asked += 1;
    }
  }

  // Sends a message to its store, or answers it. Gives whether the next one may follow.
  #send(slot) {
    const { kind, message: { do: what, doc } } = slot;
    const isToldMore = (what === "subscribe" && !this.#followed.has(doc)) || (kind === "presence" && slot.message.at !== null && !this.#gateway.presence.has(this, doc));
    if (isToldMore && !slot.isRoom && !this.#takesRoom(slot)) return false;
    if (kind === "presence") return this.#reply(slot, `{"doc":"${doc}","ok":"presence"}\n`);
    if (what === "unsubscribe") return this.#reply(slot, `{"doc":"${doc}","ok":"unsubscribed"}\n`);
    const { places, stores } = this.#gateway;
    const place = places.cached(doc);
    if (place === undefined) {
      return this.#find(slot, places.find(doc, what === "create"), (found) => found === null && (slot.reply ??= REFUSAL.NoDocument));
    }
    const store = stores.get(place);
    if (store === undefined) {
      slot.reply = place === null ? REFUSAL.NoDocument : REFUSAL.NoMemory; // a store that isn't in the settings yet
      return true;
    }
    if (kind === "command" || kind === "lease") return this.#write(slot, store);
    this.#ask(slot, store);
    return true;
  }

  // Counts one more document that it is told of, or has it wait until there is one less.
  #takesRoom(slot) {
    const full = this.#accounts.find(({ documents, mostDocuments }) => documents >= mostDocuments);
    if (full !== undefined) {
      if (slot.full === undefined) this.#tellSlowed(full.nameOf("Documents"));
      slot.full = full;
      this.#pumpLater();
      return false;
    }
    slot.full = undefined;
    slot.isRoom = true;
    this.#asksRooms += 1;
    this.#countRooms();
    return true;
  }

  #reply(slot, line) {
    slot.reply = Buffer.from(line);
    return true;
  }

  // Waits for something, and goes on then. What can't be asked for is to be sent again.
  #find(slot, promise, then) {
    slot.isAsking = true;
    promise.then(then).catch((error) => {
      slot.reply ??= REFUSAL.NoMemory;
      this.#gateway.log("a message can't be served now", { doc: slot.message.doc, error: error.message });
    }).then(() => {
      slot.isAsking = false;
      this.#pump();
    });
    return false;
  }

  // A command, or a question for a lease: both are under the holder's lease in this document.
  #write(slot, store) {
    const { message, kind } = slot;
    if (!slot.needsLease && !store.leases.has(message.doc, this.#holder)) {
      return this.#find(slot, store.standing(message.doc, () => !this.isGone), (standing) => this.#needLease(slot, standing, store.leases));
    }
    this.#written.add(message.doc);
    const lease = kind === "lease" ? store.leases.reserve(message.doc, this.#holder) : store.leases.lend(message.doc, this.#holder, slot.isNew);
    const onLease = (found) => (found === undefined ? this.#waitForName(slot, store) : this.#lent(slot, store, found));
    if (lease instanceof Promise) return this.#find(slot, lease, onLease);
    if (lease === undefined) return this.#waitForName(slot, store);
    const { places } = this.#gateway;
    if (message.do === "create" && places.isOpen(message.doc)) {
      return this.#find(slot, places.place(message.doc, store.name), () => this.#lent(slot, store, lease));
    }
    if (kind === "lease") slot.reply = leaseLine(message.doc, Object.assign(lease, { isTold: true }));
    else if (message.do === "undo" && lease.epoch > 1 && !lease.isOwn) {
      if (this.#slots.some((it) => it !== slot && isWaiting(it) && it.message.doc === message.doc)) return false; // it may become one's own
      slot.reply = REFUSAL.NothingToUndo; // what there is was another's
    } else this.#command(slot, store, lease);
    return true;
  }

  // What was written for a creation is taken back where it isn't sent after all.
  #lent(slot, { leases }, lease) {
    if (!slot.isNew) return;
    slot.undo = () => {
      slot.undo = undefined;
      leases.release(slot.message.doc, this.#holder, lease, true);
    };
    if (this.isGone || slot.reply !== undefined) slot.undo();
  }

  // All names are lent in a document: it is asked again as they come back. Gives that the next message may not follow.
  #waitForName(slot, store) {
    const { kind, message: { doc } } = slot;
    const ask = async () => (kind === "lease" ? store.leases.reserve(doc, this.#holder) : store.leases.lend(doc, this.#holder, slot.isNew));
    slot.waitsForName = true;
    store.waitForName(this.user.id, doc, {
      user: this.user.id,
      isWanted: () => !this.isGone && slot.reply === undefined,
      isServed: async () => {
        const lease = await ask();
        if (lease === undefined) return false;
        this.#lent(slot, store, lease);
        slot.waitsForName = false;
        this.#pump();
        return true;
      },
    });
    return false;
  }

  // A name isn't lent for a document that is nowhere, and none is needed to be told that one is there already.
  async #needLease(slot, standing, leases) {
    const { do: what, doc } = slot.message;
    const isCreation = what === "create";
    const { places } = this.#gateway;
    if (isCreation && standing !== "nowhere" && places.isOpen(doc)) await places.place(doc, places.cached(doc)); // the store had it before its place
    if (isCreation && standing === "there" && !(await leases.isHeld(doc, this.#holder))) slot.reply ??= REFUSAL.Exists;
    else if (!isCreation && standing === "nowhere") slot.reply ??= REFUSAL.NoDocument;
    else slot.needsLease = true;
    if (isCreation && standing === "nowhere" && !slot.isNew) await this.#countCreation(slot);
  }

  // A store has places for so many documents in its life: a user may take some of them.
  async #countCreation(slot) {
    const limit = await this.user.creates(() => this.#gateway.places.countOf(this.user.id));
    if (limit === undefined) {
      slot.isNew = slot.isCounted = true;
      if (slot.reply !== undefined || this.isGone) this.#uncount(slot, false);
      return;
    }
    this.#gateway.metrics.count("creations_refused_total", { limit });
    this.#gateway.log("a user creates more documents than he may", { user: this.user.id, limit });
    slot.reply ??= REFUSAL.TooManyDocuments;
  }

  #uncount(slot, isMade) {
    if (!slot.isCounted) return;
    slot.isCounted = false;
    this.user.created(isMade);
  }

  #command(slot, store, lease) {
    slot.isSent = true;
    slot.undo = undefined;
    lease.begin();
    const began = performance.now();
    const settle = this.#guarded((line) => this.#onCommand(slot, store, lease, line, began));
    slot.ticket = store.command(this.user.id, lease.name, slot.message, settle);
  }

  // What became of a command. Undefined: it wasn't sent, as it wasn't wanted any more; null: its session was cut.
  #onCommand(slot, store, lease, line, began) {
    const { metrics } = this.#gateway;
    const { do: what, doc, n, base } = slot.message;
    if (line === undefined) {
      this.#uncount(slot, false);
      lease.settle(n, "refused");
      if (what === "create") store.leases.release(doc, this.#holder, lease, slot.isNew === true);
      return;
    }
    if (line === null) {
      this.#uncount(slot, true);
      lease.settle(n, "cut");
      return this.close(CODE.ends, "the store's session was cut");
    }
    metrics.replies.add(performance.now() - began);
    const code = codeOf(line);
    const result = code !== 0 ? "refused" : isAgain(line) ? "again" : "taken";
    const isCreation = what === "create";
    metrics.commands[result] += 1;
    lease.settle(n, UNKNOWN.includes(code) ? "cut" : result);
    const releases = (isCreation && NOT_MADE.includes(code)) || code === NO_DOCUMENT;
    const isNowhere = code === NO_DOCUMENT || (slot.isNew === true && code !== EXISTS && code !== FULL_STORE);
    if (releases) store.leases.release(doc, this.#holder, lease, isNowhere);
    const isOthers = result === "again" && isCreation && n === 1 && lease.epoch > 1 && !lease.isOwn;
    if (result === "taken") {
      store.leases.own(doc, this.#holder, lease);
      store.news.taken(doc, line);
    }
    const listing = result !== "refused" && isCreation && !isOthers ? this.#gateway.places.created(doc, store.name, this.user.id) : undefined;
    const uncount = () => this.#uncount(slot, code === 0 || UNKNOWN.includes(code));
    if (listing === undefined) uncount();
    else listing.then(uncount, uncount);
    const name = isOthers ? undefined : lease.name;
    if (result !== "refused" && base !== PROBE) this.#gateway.taken(this.#given, slot.message, revOf(line), result === "again", name);
    if (this.isGone && code === FULL_STORE && isCreation) this.#gateway.places.undo(doc).catch(() => {});
    if (this.isGone) return;
    if (code === FULL_STORE && isCreation) return this.#sendElsewhere(slot, store, line, this.#gateway.places.move(doc, store.name));
    if (code === NO_DOCUMENT) return this.#lookAgain(slot, store, line);
    if (listing !== undefined) return this.#find(slot, listing, () => (slot.reply ??= line)); // where it can't be listed it is sent again
    this.#answer(slot, isOthers ? REFUSAL.OldNumber : line);
  }

  #ask(slot, store) {
    const { message } = slot;
    const { doc, rev } = message;
    const ticket = { isSent: false, isWanted: true };
    Object.assign(slot, { isSent: true, ticket });
    const wanted = () => ticket.isWanted && !this.isGone;
    const settle = this.#guarded((line) => {
      if (codeOf(line) === NO_DOCUMENT) return this.#lookAgain(slot, store, line);
      if (line !== TOO_LONG) return this.#answer(slot, line);
      if (slot.reply !== undefined) return;
      Object.assign(slot, { isLong: true, isSent: false });
      this.#pump();
    });
    const own = this.#own.get(doc) ?? 0;
    if (slot.isLong) return store.pass(message, own, this.user.id, this.#takerOf(slot, wanted, settle));
    if (message.do === "fetch") return store.fetch(message, rev === undefined ? own : 0, settle, wanted, this.asker);
    if (message.do === "since") return store.since(doc, rev, settle, wanted, this.asker, own);
    const subscription = new Subscription(doc, rev, this.#guarded((it) => this.#followed.get(doc)?.subscription === it && this.#tell(doc) && this.#flush()));
    store.news.join(subscription, this.#guarded((line) => {
      if (this.isGone || slot.reply !== undefined) return store.news.leave(subscription);
      if (codeOf(line) === 0) {
        slot.followed = { subscription, news: store.news };
        this.#backlogBytes += subscription.backlogBytes;
      }
      settle(line);
    }), wanted, this.asker);
  }

  // Takes the pieces of a long document. Nothing else is given until its end.
  #takerOf(slot, wanted, settle) {
    return {
      wanted,
      isBehind: () => this.#hasMuch,
      tooSlow: this.#guarded(() => this.close(CODE.later, "too slow for a document that is so long")),
      take: this.#guarded((bytes) => {
        this.#passing = slot;
        this.#put(bytes);
        this.#flush();
      }),
      settle: this.#guarded((line) => {
        if (this.#passing !== slot) return line !== null && settle(line);
        if (line === null) return this.close(CODE.ends, "the store's session was cut");
        this.#passing = undefined;
        this.#put(line);
        for (const held of this.#behind.splice(0)) this.#give(held);
        slot.isPassed = true;
        this.#answer(slot, EMPTY);
        for (const doc of [...this.#followed.keys()]) this.#tell(doc);
        this.#flush();
      }),
    };
  }

  // A document may have another place by now than the one that was asked.
  #lookAgain(slot, store, line) {
    const { places } = this.#gateway;
    if (!places.moves) return this.#answer(slot, line);
    this.#sendElsewhere(slot, store, line, places.again(slot.message.doc).catch(() => null));
  }

  // Sends what a store has refused to another one, where there is one.
  #sendElsewhere(slot, store, line, place) {
    if (slot.reply !== undefined) return;
    this.#find(slot, place, (found) => {
      if (found === null || found === store.name) slot.reply ??= line;
      else slot.isSent = false;
    });
  }

  #answer(slot, line) {
    if (this.isGone || slot.reply !== undefined) return;
    slot.reply = line;
    slot.bytes += line.length;
    this.#slotBytes += line.length;
    this.#pump();
  }

  // Gives the replies whose turn it is, and behind each the news that may go now. Gives whether there was one.
  #deliver() {
    const before = this.#slots.length;
    while (!this.isGone && this.#slots[0]?.reply !== undefined) {
      const { kind, message, reply, followed, bytes = 0, isRoom, isPassed = false } = this.#slots.shift();
      this.#slotBytes -= bytes;
      const code = codeOf(reply);
      if (reply.length > LARGE_REPLY || isPassed) this.#readsAtOnce = 1;
      if (message?.do === "unsubscribe" && code === 0) this.#unfollow(message.doc);
      this.#give(reply);
      this.#gateway.metrics.refused(code);
      if (kind === "local") continue;
      const { doc } = message;
      const left = this.#open.get(doc) - 1;
      if (left > 0) this.#open.set(doc, left);
      else this.#open.delete(doc);
      if (kind === "command" && code === 0) this.#noteOwn(doc, revOf(reply));
      if (kind === "presence" && code === 0) this.#gateway.presence.set(this, message);
      if (followed !== undefined) {
        this.#unfollow(doc);
        this.#followed.set(doc, followed);
      }
      if (isRoom) this.#asksRooms -= 1;
      if (isRoom || kind === "presence") this.#countRooms();
      this.#tell(doc);
    }
    return this.#slots.length < before;
  }

  #noteOwn(doc, rev) {
    const before = this.#own.get(doc) ?? 0;
    this.#own.delete(doc);
    this.#own.set(doc, Math.max(rev, before));
    if (this.#own.size > MOST_OWN) this.#own.delete(this.#own.keys().next().value);
  }

  // Tells the news of a document. It waits while a message of it has no reply; what stands up to an own change that was answered may go.
  #tell(doc) {
    const followed = this.#followed.get(doc);
    if (followed === undefined || this.isGone || this.#passing !== undefined) return false; // it is told behind what is passed on
    const { subscription, news } = followed;
    const last = this.#open.has(doc) ? (this.#own.get(doc) ?? 0) : Infinity;
    const { backlog } = subscription;
    while (backlog.length > 0 && subscription.told < last) {
      if (this.#isBehind()) return this.#pumpLater();
      const line = backlog.shift();
      subscription.backlogBytes -= line.length;
      this.#backlogBytes -= line.length;
      this.#giveNews(subscription, line);
    }
    if (backlog.length > 0 || subscription.told >= last) return true;
    const lines = news.linesFor(subscription, last);
    for (const line of lines ?? []) {
      if (this.#isBehind()) return this.#pumpLater();
      this.#giveNews(subscription, line);
    }
    if (lines === null && last === Infinity) {
      this.#give(endedLine(doc)); // it was deleted, or this browser is too slow for what is kept: it fetches
      this.#unfollow(doc);
    }
    return true;
  }

  #isBehind() {
    return this.#passing !== undefined || this.#socket.bufferedAmount + this.#outBytes > MOST_BUFFERED;
  }

  #giveNews(subscription, line) {
    this.#give(line);
    subscription.told += 1;
    this.#gateway.metrics.news += 1;
  }

  #pumpLater() {
    this.#timer ??= setTimeout(this.#guarded(() => {
      this.#timer = undefined;
      for (const doc of [...this.#followed.keys()]) this.#tell(doc);
      this.#pump();
    }), LATER);
    return true;
  }

  #give(line) {
    if (this.#passing === undefined) this.#put(line);
    else this.#behind.push(line);
  }

  #put(line) {
    this.#out.push(line);
    this.#outBytes += line.length;
    this.#givenBytes += line.length;
  }

  #flush() {
    const out = this.#out;
    if (out.length === 0) return;
    this.#out = [];
    this.#outBytes = 0;
    if (this.isGone) return;
    if (!this.#isPumping) queueMicrotask(() => this.count()); // once it is sent
    let small = [];
    const send = (bytes) => this.#socket.send(bytes, { binary: true });
    const sendSmall = () => {
      if (small.length > 0) send(small.length === 1 ? small[0] : Buffer.concat(small));
      small = [];
    };
    for (const line of out) {
      if (line.length < LARGE) {
        small.push(line);
        continue;
      }
      sendSmall();
      send(line);
    }
    sendSmall();
  }

  #unfollow(doc) {
    const followed = this.#followed.get(doc);
    if (followed === undefined) return;
    this.#followed.delete(doc);
    this.#backlogBytes -= followed.subscription.backlogBytes;
    followed.news.leave(followed.subscription);
    this.#countRooms();
  }

  #leave() {
    if (this.isGone) return;
    this.isGone = true;
    for (const account of this.#accounts) account.browsers.delete(this);
    this.#countRooms();
    this.#gateway.waiting.note(this, 0);
    clearTimeout(this.#timer);
    for (const slot of this.#slots) {
      slot.undo?.();
      if (slot.ticket !== undefined) slot.ticket.isWanted = false;
      else this.#uncount(slot, false);
    }
    for (const doc of [...this.#followed.keys()]) this.#unfollow(doc);
    this.#unread = EMPTY;
    this.#pieces = [];
    this.#gateway.depart(this, this.#holder, this.#written);
  }
}

const isWaiting = ({ kind, isSent, reply }) => kind === "command" && isSent === true && reply === undefined;
const isOnItsWay = (slot) => isWaiting(slot) && slot.ticket.isSent;

function leaseLine(doc, { name, epoch, next, onWay }) {
  const known = next !== undefined && onWay === 0 ? { n: next } : {};
  return Buffer.from(JSON.stringify({ doc, epoch, lease: name, ...known, ok: "lease" }) + "\n");
}
