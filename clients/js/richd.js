// A client of richd: one session at a time, which is begun again after a cut, with any number of calls and documents in it.

import { Delta } from "./delta.js";
import { RichDocument } from "./document.js";
import { Emitter } from "./emitter.js";
import { Refusal, RichdError } from "./errors.js";
import { StateEvent } from "./events.js";
import { follow } from "./follow.js";
import { LONGEST, within } from "./limits.js";
import { Line } from "./line.js";
import { News } from "./news.js";
import { takenOver } from "./operations.js";
import { LEAST_ROOM, ROOM, isLong, isTooLong, parted, restOf } from "./parting.js";
import { Pauses } from "./pauses.js";
import { Session } from "./session.js";
import { takeSource, thisPage } from "./sources.js";
import { onWaking } from "./waking.js";

export { RichDocument, RichDocument as Document, RichdError };

const PATIENCE = 30_000; // milliseconds
const MOST_DOCS = 1_000; // of which something is kept though nothing is asked; then the number of the oldest one is asked for anew

/**
 * @typedef {import("./delta.js").Op} Op
 * @typedef {import("./limits.js").Limits} Limits
 * @typedef {import("./line.js").Numbered} Numbered
 * @typedef {import("./keeping.js").Creation} Creation
 * @typedef {import("./document.js").DocumentState} DocumentState
 * @typedef {import("./document.js").DocumentEvents} DocumentEvents
 * @typedef {import("./document.js").OpenOptions} OpenOptions
 * @typedef {import("./presence.js").Other} Other
 * @typedef {import("./presence.js").Range} Range
 *
 * @typedef {"connected" | "offline" | "full" | "closed"} ClientState  "full" is "offline" where the server has no place
 *
 * @typedef {object} Options
 * @property {string} [source]  the name of whoever makes the changes, which one program has at a time. Without it a page takes one of its
 *     browser's, and a program a new one
 * @property {boolean} [isNew]  the source was never used before, so its numbers needn't be asked for
 * @property {number} [timeout]  how many milliseconds a call may take that names no other: 30,000 if it isn't given. Where it is given,
 *     `connect` ends by it too
 * @property {number} [patience]  after so many milliseconds without a byte the connection is cut, and begun again; after half of them the
 *     server is asked whether it is there. 30,000 if it isn't given, `Infinity` for neither
 * @property {AbortSignal} [signal]  closes the client
 *
 * @typedef {object} Watcher  a document that is open, which is told how its client stands
 * @property {() => void} onState
 * @property {() => void} onConnected
 * @property {() => void} onCut
 */

/**
 * Connects to a server: `{ host, port }`, `{ command, args }` for a program of one's own, or `{ url }` for a WebSocket. It waits until a
 * server is there, however long that takes; who shows a state meanwhile makes a `Client`, and waits for its `connected`.
 * @param {import("./links.js").Address & Options} options
 */
export async function connect(options) {
  const client = new Client(options);
  await client.connected();
  return client;
}

/**
 * Connects by itself, and again after each cut. It sends "state" where its state is another than before, "connected" as a session begins, and
 * "cut" as one ends by itself.
 * @template {{ [name: string]: Event }} [More={}]
 * @extends {Emitter<{ state: StateEvent<ClientState>, connected: Event, cut: Event } & More>}
 */
export class Client extends Emitter {
  #options;
  /** @type {string | undefined} */
  #source;
  #isNew; // nothing was ever changed by the source
  #release = () => {}; // gives the source back
  /** @type {ClientState} */
  #state = "offline";
  /** @type {Session | null} */
  #session = null;
  /** @type {Promise<void>} */
  #beginning;
  /** @type {Error | undefined} */
  #trouble; // the last one when a session was to begin
  #pauses = new Pauses();
  #closing = new AbortController();
  /** @type {Map<string, { line: Line, news: News }>} */
  #docs = new Map();
  #hasForgotten = false; // one of them
  /** @type {Map<string, Set<(line: import("./session.js").Reply) => void>>} who hears of those who are present in a document */
  #present = new Map();
  /** @type {Set<Watcher>} */
  #watchers = new Set();
  #wasConnected = false;

  /** @param {import("./links.js").Address & Options} options */
  constructor(options) {
    super();
    this.#options = options;
    this.#source = options.source;
    this.#isNew = options.isNew ?? false;
    options.signal?.addEventListener("abort", () => this.#shut(options.signal.reason));
    const endWaking = onWaking(() => this.#wake());
    this.#closing.signal.addEventListener("abort", endWaking);
    this.#begin();
  }

  /** The source's name: where a new one is made up, once the first session begins. */
  get source() {
    return this.#source;
  }

  /** @returns {ClientState} */
  get state() {
    return this.#state;
  }

  /** Waits until it is connected. Where it never was, and the time ends, the client is closed. */
  async connected() {
    this.#closing.signal.throwIfAborted();
    try {
      await within(this.#beginning, this.#options, () => new RichdError(0, "Timeout", this.#trouble));
    } catch (error) {
      if (!this.#wasConnected) this.#shut(error);
      throw error;
    }
  }

  /**
   * Creates a document, or one that was deleted again. A source that created it before, and did nothing more, gets the same answer. Contents
   * that are longer than a message are inserted by edits behind the first part; where this source didn't come to the end of that before, and
   * nobody did anything else, it goes on with it.
   * @param {string} doc
   * @param {Op[]} ops
   * @param {Limits} [limits]
   */
  async create(doc, ops, limits) {
    const { rev, first, rest } = await this.begin(doc, ops, limits);
    return rest.ops.length === 0 ? { rev } : RichDocument.send(this, doc, { rev, ops: first.ops }, rest, this.#timed(limits));
  }

  /**
   * Creates a document with as much of its contents as a message may have. Gives what is left, as an edit of the first part.
   * @param {string} doc
   * @param {Op[]} ops
   * @param {Limits & { keep?: (creation: Creation) => Promise<void> }} [limits]  `keep` is waited for before a part of the contents leaves
   * @returns {Promise<{ rev: number, first: { ops: Op[] }, rest: Delta }>}
   */
  async begin(doc, ops, limits) {
    const isWhole = !Array.isArray(ops) || !isLong(ops);
    for (let room = ROOM; ; room /= 2) {
      const [first, rest] = isWhole && room === ROOM ? [{ ops }, new Delta()] : parted(takenOver(ops), room);
      const isKept = limits?.keep !== undefined && rest.ops.length > 0;
      const hold = isKept ? (/** @type {Numbered} */ numbered) => limits.keep({ first: first.ops, rest: rest.ops, ...numbered }) : undefined;
      try {
        const { ok, rev } = await this.#ask(doc, { do: "create", ops: first.ops }, true, { ...limits, hold });
        if (ok === "taken" || rest.ops.length === 0) return { rev, first, rest };
      } catch (error) {
        if (!isTooLong(error) || room <= LEAST_ROOM) throw error;
        continue;
      }
      const { rev, ops: made } = await this.fetch(doc, undefined, limits);
      const left = restOf(made, ops);
      if (left === undefined) throw new RichdError(Refusal.Exists, "Exists");
      return { rev, first: { ops: made }, rest: left };
    }
  }

  /**
   * Creates a document as an earlier page began to, under the same number.
   * @param {string} doc
   * @param {Creation} creation
   * @returns {Promise<{ rev: number, ops: Op[], rest: Delta }>}
   */
  async beginAgain(doc, { first, rest, number, lease }) {
    const { rev } = await this.#ask(doc, { do: "create", ops: first }, true, { kept: { number, lease } });
    return { rev, ops: first, rest: new Delta(rest) };
  }

  /**
   * Changes a document by operations that were made on its revision `base`; by several edits where they are longer than a message.
   * @param {string} doc
   * @param {Op[]} ops
   * @param {number} base
   * @param {Limits} [limits]
   */
  async edit(doc, ops, base, limits) {
    if (!Array.isArray(ops) || !isLong(ops)) return this.#command(doc, { do: "edit", base, ops }, limits);
    const edit = takenOver(ops);
    return RichDocument.send(this, doc, await this.fetch(doc, base, limits), edit, this.#timed(limits));
  }

  /**
   * Takes this source's last change of a document back.
   * @param {string} doc
   * @param {Limits} [limits]
   */
  undo(doc, limits) {
    return this.#command(doc, { do: "undo" }, limits);
  }

  /**
   * Deletes a document. Its name stays, and `create` makes it again.
   * @param {string} doc
   * @param {Limits} [limits]
   */
  delete(doc, limits) {
    return this.#command(doc, { do: "delete" }, limits);
  }

  /**
   * A document at a revision, or at the newest.
   * @param {string} doc
   * @param {number} [at]
   * @param {Limits} [limits]
   * @returns {Promise<{ rev: number, ops: Op[] }>}
   */
  async fetch(doc, at, limits) {
    const { rev, ops } = await this.#ask(doc, at === undefined ? { do: "fetch" } : { do: "fetch", rev: at }, false, limits);
    return { rev, ops };
  }

  /**
   * What made each revision above one, up to the newest.
   * @param {string} doc
   * @param {number} at
   * @param {Limits} [limits]
   * @returns {Promise<{ rev: number, deltas: Op[][] }>}
   */
  async since(doc, at, limits) {
    const { rev, deltas } = await this.#ask(doc, { do: "since", rev: at }, false, limits);
    return { rev, deltas };
  }

  /**
   * Each revision above one, as it comes, with what made it. It ends when the client is closed.
   * @param {string} doc
   * @param {number} fromRev
   * @param {{ signal?: AbortSignal }} [options]  the signal ends it with its reason
   * @returns {AsyncGenerator<{ rev: number, ops: Op[] }, void, void>}
   */
  follow(doc, fromRev, options) {
    return follow(this, doc, fromRev, options?.signal);
  }

  /**
   * Calls a follower for each revision above its own, as `follow` gives it. Returns what ends that.
   * @param {string} doc
   * @param {import("./news.js").Follower} follower
   */
  onNews(doc, follower) {
    if (this.#closing.signal.aborted) {
      follower.onEnd(this.#closing.signal.reason);
      return () => {};
    }
    const { news } = this.#of(doc);
    news.join(follower);
    return () => news.leave(follower);
  }

  /**
   * Calls a function with each line that a gateway tells of others who are present in a document, while one is present oneself. Returns what
   * ends that.
   * @param {string} doc
   * @param {(line: import("./session.js").Reply) => void} take
   */
  onPresence(doc, take) {
    const all = this.#present.get(doc) ?? new Set();
    this.#present.set(doc, all.add(take));
    return () => {
      all.delete(take);
      if (all.size === 0 && this.#present.get(doc) === all) this.#present.delete(doc);
    };
  }

  /**
   * Tells a gateway where one is in a document at a revision, or with null that one has left. Says whether there is a gateway: other servers
   * aren't told.
   * @param {string} doc
   * @param {number} rev
   * @param {[number, number] | null} at
   * @returns {Promise<boolean>}
   */
  async tellPresence(doc, rev, at) {
    const session = this.#session;
    if (!session?.isGateway) return false;
    await new Promise((resolve, reject) => session.send({ do: "presence", doc, rev, at }, (error) => (error ? reject(error) : resolve(undefined))));
    return true;
  }

  /**
   * Tells a document of each state, beginning and cut. It listens to no event for that, since Node warns of more than ten who do. Returns
   * what ends it.
   * @param {Watcher} watcher
   */
  watch(watcher) {
    this.#watchers.add(watcher);
    return () => void this.#watchers.delete(watcher);
  }

  /**
   * Opens a document that types ahead.
   * @param {string} doc
   * @param {import("./document.js").OpenOptions} [options]
   */
  open(doc, options) {
    return RichDocument.open(this, doc, options);
  }

  /** Ends the session, once all that was sent is answered. What wasn't sent ends with "Closed". */
  async close() {
    const session = this.#session;
    this.#stop(new RichdError(0, "Closed"));
    session?.end();
    await session?.ended;
    this.#release();
  }

  /**
   * @param {string} doc
   * @param {import("./session.js").Message} message
   * @param {Limits} [limits]
   * @returns {Promise<{ rev: number }>}
   */
  async #command(doc, message, limits) {
    const { rev } = await this.#ask(doc, message, true, limits);
    return { rev };
  }

  /**
   * @param {string} doc
   * @param {import("./session.js").Message} message
   * @param {boolean} isCommand
   * @param {Limits & Pick<import("./line.js").Item, "hold" | "kept">} [limits]
   */
  async #ask(doc, message, isCommand, limits) {
    this.#closing.signal.throwIfAborted();
    const { line } = this.#of(doc);
    /** @type {any} */
    const item = { message: { ...message, doc }, isCommand, onRetry: limits?.onRetry, hold: limits?.hold, kept: limits?.kept };
    const answer = new Promise((resolve, reject) => {
      item.settle = (/** @type {any} */ error, /** @type {any} */ reply) => (error ? reject(error) : resolve(reply));
    });
    line.add(item);
    try {
      const late = () => item.trouble ?? new RichdError(0, "Timeout");
      return await within(answer, this.#timed(limits), late);
    } catch (error) {
      line.remove(item);
      throw error;
    }
  }

  /** @param {Limits} [limits] */
  #timed(limits) {
    return { ...limits, timeout: limits?.timeout ?? this.#options.timeout ?? PATIENCE };
  }

  /** @param {string} doc */
  #of(doc) {
    if (!this.#docs.has(doc)) {
      if (this.#docs.size >= MOST_DOCS) this.#forget();
      const line = new Line(doc, this.#isNew && !this.#hasForgotten);
      const news = new News((message, settle) => line.add({ message: { ...message, doc }, isCommand: false, settle }));
      line.session = this.#session;
      this.#docs.set(doc, { line, news });
    }
    return this.#docs.get(doc);
  }

  #forget() {
    for (const [doc, { line, news }] of this.#docs) {
      if (!line.isIdle || !news.isIdle) continue;
      this.#docs.delete(doc);
      this.#hasForgotten = true;
      return;
    }
  }

  #begin(isAgain = false) {
    this.#beginning = this.#tryToBegin(isAgain);
    this.#beginning.catch((error) => this.#shut(error));
  }

  /** @param {boolean} isAgain */
  async #tryToBegin(isAgain) {
    const { signal } = this.#closing;
    for (; ; isAgain = true) {
      if (isAgain && !signal.aborted) await this.#pauses.wait();
      signal.throwIfAborted();
      this.#options.signal?.throwIfAborted();
      if (this.#source === undefined) await this.#takeSource();
      try {
        this.#session = await Session.begin(this.#options, this.#source, {
          onNews: (line) => this.#docs.get(line.doc)?.news.take(line),
          onPresence: (line) => this.#present.get(line.doc)?.forEach((take) => take(line)),
          onEnd: (cause) => this.#onCut(cause),
          patience: Math.min(this.#options.patience ?? PATIENCE, LONGEST),
          signal,
        });
        if (!signal.aborted) break;
        this.#session.cut();
      } catch (error) {
        signal.throwIfAborted();
        if (this.#isHopeless(error)) throw error;
        if (error.code > 0 && error.code !== Refusal.NoMemory) throw error; // the name is none
        if (error.cause?.name === "Replaced") throw error.cause;
        this.#trouble = error;
        this.#tell(error.cause?.name === "Full" ? "full" : "offline");
      }
    }
    for (const { line, news } of this.#docs.values()) {
      line.session = this.#session;
      news.renew();
    }
    this.#wasConnected = true;
    this.#tell("connected");
    this.dispatchEvent(new Event("connected"));
    for (const { onConnected } of [...this.#watchers]) onConnected();
  }

  // Whether there is no such program, no such link here, or no such address, so that no attempt will succeed.
  /** @param {any} error */
  #isHopeless(error) {
    const isNoProgram = this.#options.command !== undefined && ["ENOENT", "EACCES"].includes(error.code);
    return isNoProgram || [TypeError, RangeError, SyntaxError].some((kind) => error instanceof kind);
  }

  async #takeSource() {
    const { source, isNew, release } = await takeSource(thisPage());
    [this.#source, this.#isNew, this.#release] = [source, isNew, release];
    if (this.#closing.signal.aborted) release();
    if (isNew) for (const { line } of this.#docs.values()) line.beginNumbers();
  }

  // The network may be back: it connects at once, or looks whether the connection that there is still is one.
  #wake() {
    this.#pauses.reset();
    this.#pauses.end();
    this.#session?.check();
  }

  /** @param {ClientState} state */
  #tell(state) {
    if (state === this.#state || this.#state === "closed") return;
    this.#state = state;
    this.dispatchEvent(new StateEvent(state));
    for (const { onState } of [...this.#watchers]) onState();
  }

  /** @param {Error} [cause] */
  #onCut(cause) {
    if (this.#session.hasServed) this.#pauses.reset();
    this.#session = null;
    for (const { line } of this.#docs.values()) line.session = null;
    if (this.#closing.signal.aborted) return this.#stop(this.#closing.signal.reason);
    if (cause?.name === "Replaced") return this.#shut(cause);
    this.#tell("offline");
    this.dispatchEvent(new Event("cut"));
    for (const { onCut } of [...this.#watchers]) onCut();
    this.#begin(true);
  }

  /**
   * Sends nothing more, and ends what wasn't sent with an error.
   * @param {any} error
   */
  #stop(error) {
    this.#closing.abort(error);
    this.#pauses.end();
    for (const { line, news } of this.#docs.values()) {
      line.session = null;
      line.refuse(error);
      news.end(error);
    }
    this.#tell("closed");
  }

  /** @param {any} error */
  #shut(error) {
    this.#stop(error);
    this.#session?.cut();
    this.#release();
  }
}
