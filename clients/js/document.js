// A document that types ahead: what is typed shows at once, and is sent one edit at a time.

import { Delta, remember } from "./delta.js";
import { difference } from "./difference.js";
import { Emitter } from "./emitter.js";
import { Refusal, RichdError } from "./errors.js";
import { ChangeEvent, DoubtEvent, RebasedEvent, StateEvent, TroubleEvent, UnkeptEvent } from "./events.js";
import { History, Steps } from "./history.js";
import { within } from "./limits.js";
import { cutsPair, growthOf, reachOf, takenOver } from "./operations.js";
import { LEAST_ROOM, ROOM, isLong, isTooLong, parted, restOf } from "./parting.js";
import { Pauses } from "./pauses.js";
import { Places, Presence } from "./presence.js";
import { Values } from "./values.js";

const MOST_PAST_ENDS = 4;
const MOST_NEWS = 1_000; // revisions that wait for the answer to an edit; then it follows anew once that is there
const NEVER = { timeout: Infinity }; // an edit is sent until it is answered

/**
 * How a document stands, the first of these that holds:
 * - `closed`: nothing more is taken, as trouble said that was final, or `close` was called;
 * - `offline`: there is no connection, `full`: because the server has no place; what is typed is sent once there is one;
 * - `storeFailed`: the server's store has failed; what was typed is sent until the server is started anew;
 * - `refused`: what was typed last was refused, and is no longer shown, as trouble said;
 * - `parted`: an editor that was bound to it couldn't show it, as trouble said, and is disabled;
 * - `saving`: something typed isn't on the server's disk yet;
 * - `saved`: all is.
 * @typedef {"closed" | "offline" | "full" | "storeFailed" | "refused" | "parted" | "saving" | "saved"} DocumentState
 *
 * @typedef {import("./delta.js").Op} Op
 *
 * @typedef {object} OpenOptions
 * @property {Op[] | import("./delta.js").QuillDelta["ops"]} [create]  what the document is created with where it isn't there
 * @property {import("./values.js").Encode} [encode]  what the server keeps in a value's place, as JSON in a text for an object if it isn't given
 * @property {import("./values.js").Decode} [decode]  the other way
 * @property {import("./keeping.js").Keeper} [keeper]  keeps what isn't on the server's disk yet; `richd/offline` gives one
 */

/**
 * The events of a document, by their names.
 * @typedef {{
 *   change: ChangeEvent, trouble: TroubleEvent | import("./events.js").PartedEvent, doubt: DoubtEvent, unkept: UnkeptEvent, rebased: RebasedEvent,
 *   state: StateEvent<DocumentState>, progress: Event
 * }} DocumentEvents
 */

/** @param {Op} op @returns {Op} */
function copied(op) {
  const copy = { ...op };
  if (op.attributes !== undefined) copy.attributes = { ...op.attributes };
  if (typeof op.insert === "object") copy.insert = { ...op.insert };
  return copy;
}

/** @param {Op} op */
function frozen(op) {
  if (Object.isFrozen(op)) return op;
  if (op.attributes !== undefined) Object.freeze(op.attributes);
  if (typeof op.insert === "object") Object.freeze(op.insert);
  return Object.freeze(op);
}

/**
 * A document that is created where it isn't there, with what is still to be inserted where its contents are longer than a message. Somebody
 * else may create it at the same time. Then the server says so before it shows the document, which a crash may yet take back. Where this
 * source began to create it, and didn't come to the end, it goes on with that.
 * @param {import("./richd.js").Client} client
 * @param {string} name
 * @param {Op[]} ops
 * @param {import("./keeping.js").Keeper} [keeper]  keeps what isn't on its way yet
 * @returns {Promise<{ rev: number, ops: Op[], rest?: Delta }>}
 */
async function fetchCreated(client, name, ops, keeper) {
  const pauses = new Pauses();
  const hasParts = isLong(ops);
  /** @type {{ rev: number, ops: Op[] } | undefined} */
  let fetched;
  for (let tries = 0; ; tries += 1) {
    try {
      fetched = await client.fetch(name); // whoever only reads needs no number
      if (!hasParts || !restOf(fetched.ops, ops)?.ops.length) return fetched;
    } catch (error) {
      if (error.code !== Refusal.NoDocument && error.code !== Refusal.Deleted) throw error;
      fetched = undefined;
    }
    if (tries > 0) await pauses.wait();
    try {
      const { rev, first, rest } = await client.begin(name, ops, { keep: keeper && ((creation) => keeper.keep(creation)) });
      if (rest.ops.length > 0) return { rev, ops: first.ops, rest };
    } catch (error) {
      if (error.code !== Refusal.Exists && error.name !== "InDoubt") throw error;
      if (fetched !== undefined) return fetched; // others are about to create it
    }
  }
}

/**
 * A document that an earlier page began to create. Where it can't be known whether that was taken, or somebody else was sooner, it is created or
 * fetched as any other.
 * @param {import("./richd.js").Client} client
 * @param {string} name
 * @param {import("./keeping.js").Creation} creation
 * @param {import("./keeping.js").Keeper} keeper
 */
async function createAgain(client, name, creation, keeper) {
  try {
    return await client.beginAgain(name, creation);
  } catch (error) {
    if (error.code !== Refusal.Exists && error.name !== "InDoubt" && !isTooLong(error)) throw error;
    return fetchCreated(client, name, new Delta(creation.first).compose(new Delta(creation.rest)).ops, keeper);
  }
}

/**
 * Sends "change" for what others did, "trouble" where something typed is lost, "rebased" where it was fetched anew, "state" where its state is
 * another than before, and "progress" where `revision` or `isSaved` may have changed.
 *
 * `base` is the document at `revision`. What is shown is `base`, with `sent` behind it, and `typed` behind that. News that comes while
 * `sent` has no answer is held until it has one: only then is it known which revision is its own.
 *
 * @extends {Emitter<DocumentEvents>}
 */
export class RichDocument extends Emitter {
  /** @type {import("./richd.js").Client} */
  #client;
  /** @type {string} */
  #name;
  #values = new Values();
  /** @type {Delta} */
  #base;
  #baseLength = 0;
  /** @type {number} */
  #revision;
  /** @type {Delta} */
  #contents;
  #length = 0; // of it
  /** @type {Delta | null} */
  #sent = null;
  /** @type {number | null} the revision that `sent` made, once it is answered */
  #taken = null;
  /** @type {import("./line.js").Numbered | undefined} what `sent` is known by, where there is a keeper and it may have left */
  #numbered;
  /** @type {import("./keeping.js").Keeper | undefined} */
  #keeper;
  #typed = new Delta();
  /** @type {{ ops: Op[], rev: number }[]} */
  #news = [];
  #isStale = false; // the next revision isn't held any more, so the document has to be fetched anew
  #isBehind = false; // it isn't followed, until the edit that is on its way is answered
  #isClosed = false;
  #isRefused = false; // what was typed last
  #hasStoreFailed = false;
  /** @type {DocumentState} */
  #state = "saved"; // that was told last
  #room = ROOM;
  #strays = 0; // how often in a row it was fetched anew, and nothing was taken or told meanwhile
  #pastEnds = 0; // how often in a row an edit was refused by PastEnd, though the document was fetched anew
  #pauses = new Pauses();
  /** @type {Map<object, "typing" | "parted">} those editors that show something else */
  #editors = new Map();
  #leave = () => {};
  #depart = () => {}; // and isn't present any more
  #steps = new Steps();
  #history = new History(this.#steps, (way) => this.#turn(way));
  #places = new Places({
    revision: () => this.#revision,
    pending: () => (this.#sent === null ? [this.#typed] : [this.#sent, this.#typed]),
    tell: (rev, at) => this.#client.tellPresence(this.#name, rev, at),
    since: (rev) => this.#client.since(this.#name, rev),
    deltaOf: (ops) => new Delta(ops),
  });
  #presence = new Presence(this.#places);
  /** @type {{ resolve: (revision: number) => void, reject: (error: Error) => void }[]} those who wait in `flush` */
  #waiting = [];

  /**
   * @param {import("./richd.js").Client} client
   * @param {string} name
   * @param {OpenOptions} [options]
   */
  static async open(client, name, options) {
    const document = new RichDocument();
    document.#client = client;
    document.#name = name;
    document.#values = new Values(options?.encode, options?.decode);
    document.#keeper = options?.keeper;
    const kept = await document.#keeper?.load();
    if (kept === undefined) {
      const ops = options?.create && document.#values.encode(options.create);
      document.#start(ops === undefined ? await client.fetch(name) : await fetchCreated(client, name, ops, document.#keeper));
    } else if (kept.creation !== undefined) {
      document.#start(await createAgain(client, name, kept.creation, document.#keeper));
    } else {
      document.#restore(kept);
    }
    document.#length = document.#contents.length();
    document.#meet();
    document.#state = document.state;
    document.#keeper?.watch(document, () => document.#snapshot());
    if (document.#sent !== null) document.#sendOff();
    else document.#goOn();
    return document;
  }

  /**
   * Sends an edit in parts, as it is too long for a line. Gives the revision that the last one made.
   * @param {import("./richd.js").Client} client
   * @param {string} name
   * @param {{ rev: number, ops: Op[] }} base
   * @param {Delta} edit
   * @param {import("./limits.js").Limits} limits
   * @returns {Promise<{ rev: number }>}
   */
  static async send(client, name, base, edit, limits) {
    const document = new RichDocument();
    document.#client = client;
    document.#name = name;
    document.#start({ ...base, rest: edit });
    document.#send();
    try {
      return { rev: await within(document.flush(), limits, () => new RichdError(0, "Timeout")) };
    } finally {
      document.close();
    }
  }

  /** @param {{ rev: number, ops: Op[], rest?: Delta }} given  what the server has, and what is to be done to it first */
  #start({ rev, ops, rest = new Delta() }) {
    this.#begin(rev, new Delta(ops));
    this.#typed = rest;
    this.#contents = this.#base.compose(rest);
  }

  get name() {
    return this.#name;
  }

  /** The last revision of the server's that is in what is shown. */
  get revision() {
    return this.#revision;
  }

  /**
   * What is shown: a delta of the reader's own, of operations that are frozen.
   * @returns {Delta}
   */
  get contents() {
    return new Delta(this.#values.decode(this.#contents.ops).map(frozen));
  }

  /** What turns values as the server keeps them into those that `contents` has, and back. */
  get values() {
    return this.#values;
  }

  /** How many units are shown: UTF-16 code units, and embeds. */
  get length() {
    return this.#length;
  }

  /** Undo and redo of what was typed here. */
  get history() {
    return this.#history;
  }

  /** Who else is in the document, and where; and where its own user is. */
  get presence() {
    return this.#presence;
  }

  /** Whether it is followed no longer: it was closed, or trouble came that is final. */
  get isClosed() {
    return this.#isClosed;
  }

  /** @returns {DocumentState} */
  get state() {
    if (this.#isClosed) return "closed";
    if (this.#client.state !== "connected") return this.#client.state;
    if (this.#hasStoreFailed) return "storeFailed";
    if (this.#isRefused) return "refused";
    if ([...this.#editors.values()].includes("parted")) return "parted";
    return this.isSaved ? "saved" : "saving";
  }

  /** Whether all that was typed is on the server's disk. */
  get isSaved() {
    return this.#isTaken && this.#editors.size === 0;
  }

  /** Whether what is shown would outlive the page: it is on the server's disk, or kept. */
  get isKept() {
    const isTyping = [...this.#editors.values()].includes("typing");
    return !isTyping && (this.#isTaken || (this.#keeper?.isUpToDate ?? false));
  }

  get #isTaken() {
    return this.#sent === null && this.#typed.ops.length === 0;
  }

  /**
   * Changes what is shown by something that was typed. Throws what a server would refuse it by, as BadOps, LineTooLong or PastEnd: then it
   * isn't shown, and "trouble" tells of it too.
   * @param {Op[] | { ops: Op[] } | import("./delta.js").QuillDelta} ops
   * @param {{ isStep?: boolean }} [options]  whether `history` takes it back
   */
  apply(ops, options) {
    if (this.#isClosed) throw new RichdError(0, "Closed");
    const given = /** @type {Op[]} */ (Array.isArray(ops) ? ops : ops?.ops);
    let delta;
    try {
      delta = this.#readTyped(given);
    } catch (error) {
      this.lose(new TroubleEvent(error, new Delta(Array.isArray(given) ? given : []), false));
      throw error;
    }
    if (options?.isStep ?? true) this.#steps.record(delta.invert(this.#contents));
    else this.#steps.move(delta);
    this.#places.move(delta, true);
    this.#type(delta);
  }

  /** @param {Delta} delta */
  #type(delta) {
    this.#change(delta);
    this.#typed = this.#typed.compose(delta);
    this.#isRefused = false;
    queueMicrotask(() => this.#send()); // what is typed in one go is sent in one edit
    this.#tell();
  }

  /** @param {Delta} delta  what is shown otherwise */
  #change(delta) {
    this.#contents = this.#contents.compose(delta);
    this.#length += growthOf(delta);
  }

  /**
   * Tells that something typed in an editor is lost.
   * @param {TroubleEvent} event
   */
  lose(event) {
    this.#isRefused = true;
    this.#tell();
    this.dispatchEvent(event);
  }

  /**
   * Says how an editor stands that is bound to it: "typing" while something is typed there that isn't here yet, "parted" where it can't show
   * what is here, and undefined where it does.
   * @param {object} editor
   * @param {"typing" | "parted" | undefined} how
   */
  stand(editor, how) {
    if (this.#editors.get(editor) === how) return;
    if (how === undefined) this.#editors.delete(editor);
    else this.#editors.set(editor, how);
    this.#tell();
  }

  // Events have operations of their own, since whoever is told may keep and change them.
  /** @param {{ ops: Op[] }} delta @returns {Delta} */
  #told({ ops }) {
    return new Delta(this.#values.decode(ops).map(copied));
  }

  // Tells that it may stand otherwise than before.
  #tell() {
    this.dispatchEvent(new Event("progress"));
    this.#places.settle();
    const { state } = this;
    if (state === this.#state) return;
    this.#state = state;
    this.dispatchEvent(new StateEvent(state));
  }

  /** @param {"undo" | "redo"} way */
  #turn(way) {
    if (this.#isClosed) throw new RichdError(0, "Closed");
    const step = this.#steps.take(way, this.#contents);
    if (step === undefined) return false;
    this.#places.move(step, true);
    this.#type(step);
    this.dispatchEvent(new ChangeEvent(this.#told(step), true));
    return true;
  }

  /**
   * Whether a change begins or ends between the two halves of a character.
   * @param {{ ops: Op[] }} change  as the server keeps it
   */
  cutsPair(change) {
    return cutsPair(change, this.#contents);
  }

  /** @param {Op[]} ops */
  #readTyped(ops) {
    const delta = takenOver(this.#encoded(ops));
    if (reachOf(delta) > this.#length) throw new RichdError(Refusal.PastEnd, "PastEnd");
    if (this.cutsPair(delta)) throw new RichdError(Refusal.CutsPair, "CutsPair");
    return delta;
  }

  /** @param {any} ops */
  #encoded(ops) {
    if (!Array.isArray(ops)) return ops;
    try {
      return this.#values.encode(ops);
    } catch (cause) {
      throw new RichdError(Refusal.BadOps, "BadOps", cause);
    }
  }

  /**
   * Waits until all that was typed is on the server's disk.
   * @returns {Promise<number>} the revision then
   */
  async flush() {
    if (this.#isTaken) return this.#revision;
    if (this.#isClosed) throw new RichdError(0, "Closed");
    return new Promise((resolve, reject) => this.#waiting.push({ resolve, reject }));
  }

  /** Follows it no longer. What was sent is still answered; what wasn't is dropped. */
  close() {
    this.#stop(new RichdError(0, "Closed"));
  }

  // Hears how the client stands, and of those who are present, in each session.
  #meet() {
    const [client, places] = [this.#client, this.#places];
    const leave = client.onPresence(this.#name, (line) => places.take(line));
    const unwatch = client.watch({ onState: () => this.#tell(), onConnected: () => places.begin(), onCut: () => places.end() });
    this.#depart = () => {
      places.set(null);
      leave();
      unwatch();
    };
  }

  get #isInDoubt() {
    return this.#sent !== null && this.#taken === null;
  }

  /** @param {number} revision @param {Delta} base */
  #begin(revision, base) {
    this.#revision = revision;
    this.#base = remember(base.compose(new Delta())); // in normal form
    this.#baseLength = base.length();
    this.#isStale = false;
    this.#follow();
  }

  #follow() {
    this.#isBehind = false;
    this.#news = [];
    this.#leave = this.#client.onNews(this.#name, {
      rev: this.#revision,
      onNews: (ops, rev) => {
        this.#news.push({ ops, rev });
        if (this.#news.length > MOST_NEWS) this.#fallBehind();
        this.#goOn();
      },
      onEnd: (error) => this.#onEnd(error),
    });
  }

  #fallBehind() {
    this.#leave();
    this.#news = [];
    this.#isBehind = true;
  }

  /** @param {RichdError} error */
  #onEnd(error) {
    if (error.code !== Refusal.TooOld && error.code !== Refusal.Future) return this.#fail(error);
    this.#isStale = true;
    this.#goOn();
  }

  #send() {
    if (this.#sent !== null || this.#isStale || this.#isClosed || this.#typed.ops.length === 0) return;
    const [first, rest] = parted(this.#typed, this.#room);
    this.#sent = first;
    this.#typed = rest;
    this.#numbered = undefined;
    this.#sendOff();
  }

  // Sends `sent`, again where it has a number. With a keeper it leaves once it is written, with its number and lease.
  #sendOff() {
    const keeper = this.#keeper;
    const hold = keeper && (async (/** @type {import("./line.js").Numbered} */ numbered) => {
      this.#numbered = numbered;
      await keeper.write();
    });
    const limits = { ...NEVER, onRetry: (/** @type {RichdError} */ error) => this.#onRetry(error), hold, kept: this.#numbered, signal: keeper?.signal };
    this.#client.edit(this.#name, this.#sent.ops, this.#revision, limits).then(
      ({ rev }) => {
        this.#hasStoreFailed = false;
        if (this.#typed.ops.length === 0) this.#room = Math.min(ROOM, 2 * this.#room);
        this.#taken = rev;
        this.#strays = this.#pastEnds = 0;
        this.#goOn();
      },
      (error) => this.#onRefusal(error),
    );
  }

  /** @returns {import("./keeping.js").Snapshot} */
  #snapshot() {
    const [base, revision, isStale, sent, typed] = [this.#base, this.#revision, this.#isStale, this.#sent, this.#typed];
    const { number, lease } = (sent && this.#numbered) ?? {};
    return { base, revision, isStale, sent, number, lease, typed };
  }

  // Begins with what was kept. What was to be sent, and never left, is typed.
  /** @param {import("./keeping.js").Kept} kept */
  #restore({ base, revision, isStale, sent, number, lease, typed }) {
    const [leaving, behind] = [new Delta(sent ?? []), new Delta(typed)];
    this.#begin(revision, new Delta(base));
    this.#isStale = isStale;
    this.#contents = this.#base.compose(leaving).compose(behind);
    this.#numbered = number === undefined ? undefined : { number, lease };
    this.#sent = number === undefined ? null : leaving;
    this.#typed = number === undefined ? leaving.compose(behind) : behind;
  }

  // Takes over what has come, and sends what there is to be sent.
  #goOn() {
    while (!this.#isInDoubt && !this.#isStale) {
      if (this.#taken !== null && this.#taken <= this.#revision + 1) {
        this.#takeOverOwn();
        continue;
      }
      const next = this.#news.shift();
      if (next === undefined) break;
      if (next.rev !== this.#revision + 1) continue;
      if (reachOf(next) <= this.#baseLength) this.#takeOver(new Delta(next.ops), next.rev);
      else this.#isStale = true; // this copy isn't the server's
    }
    if (this.#isClosed) return;
    if (this.#isBehind && !this.#isStale && !this.#isInDoubt) this.#follow();
    if (this.#isStale && !this.#isInDoubt) this.#fetchAnew();
    else this.#send();
    if (this.#isTaken) for (const { resolve } of this.#waiting.splice(0)) resolve(this.#revision);
    this.#tell();
  }

  // Takes over what was sent. Where its number made an older revision, somebody else had used it before, and it is sent anew.
  #takeOverOwn() {
    if (this.#taken <= this.#revision) {
      this.#typed = this.#sent.compose(this.#typed);
    } else {
      this.#base = this.#base.compose(this.#sent);
      this.#baseLength += growthOf(this.#sent);
      this.#revision = this.#taken;
      this.#places.step(this.#sent, this.#revision, true);
    }
    this.#sent = this.#taken = null;
  }

  /**
   * Takes over what somebody else did: past what was sent, and past what was typed behind that.
   * @param {Delta} change
   * @param {number} revision
   */
  #takeOver(change, revision) {
    this.#base = this.#base.compose(change);
    this.#baseLength += growthOf(change);
    this.#revision = revision;
    this.#places.step(change, revision, false);
    this.#strays = 0;
    if (this.#sent !== null) {
      const sent = change.transform(this.#sent, true);
      change = this.#sent.transform(change, false);
      this.#sent = sent;
    }
    this.#show(change);
  }

  /**
   * Changes what is shown, past what was typed.
   * @param {Delta} change
   */
  #show(change) {
    const shown = this.#typed.transform(change, false);
    this.#typed = change.transform(this.#typed, true);
    if (shown.ops.length === 0) return;
    this.#steps.move(shown);
    this.#places.move(shown, false);
    this.#change(shown);
    this.dispatchEvent(new ChangeEvent(this.#told(shown), false));
  }

  /** @param {RichdError} error */
  #onRetry(error) {
    this.#hasStoreFailed = error.code === Refusal.StoreFailed;
    this.#tell();
  }

  /** @param {RichdError} error */
  #onRefusal(error) {
    this.#hasStoreFailed = false;
    if (error.name === "Closed") return this.#stop(error);
    if (error.name === "Replaced") return this.#fail(error);
    if (error.name === "InDoubt") return this.#leaveOut();
    const isElsewhere = [Refusal.Future, Refusal.TooOld].includes(error.code) || (error.code === Refusal.PastEnd && this.#pastEnds < MOST_PAST_ENDS);
    const typed = this.#sent.compose(this.#typed);
    const isOnePart = parted(this.#sent, LEAST_ROOM)[1].ops.length === 0;
    this.#sent = null;
    if (isTooLong(error) && !isOnePart && this.#room > LEAST_ROOM) {
      this.#typed = typed;
      this.#room /= 2;
    } else if (isElsewhere) {
      if (error.code === Refusal.PastEnd) this.#pastEnds += 1;
      this.#typed = typed;
      this.#isStale = true;
    } else {
      this.#drop(typed, error);
    }
    this.#goOn();
  }

  // Takes what was sent out of what is shown. Where it was taken it comes as others' changes do.
  #leaveOut() {
    const [inDoubt, revision] = [this.#sent, this.#revision];
    this.#sent = null;
    this.#show(inDoubt.invert(this.#base));
    this.dispatchEvent(new DoubtEvent(this.#told(inDoubt), revision));
    this.#goOn();
  }

  /**
   * Takes back what was typed and can't be taken.
   * @param {Delta} typed
   * @param {RichdError} error
   */
  #drop(typed, error) {
    const shown = typed.invert(this.#base);
    this.#places.move(shown, false);
    this.#typed = new Delta();
    this.#steps.clear();
    this.#room = ROOM;
    this.#contents = this.#base;
    this.#length = this.#baseLength;
    this.#strays = this.#pastEnds = 0;
    this.#isRefused = true;
    for (const { reject } of this.#waiting.splice(0)) reject(error);
    this.dispatchEvent(new ChangeEvent(this.#told(shown), false));
    this.dispatchEvent(new TroubleEvent(error, this.#told(typed), false));
  }

  // Fetches the newest revision, and moves what was typed onto it as if one change had come.
  async #fetchAnew() {
    this.#leave();
    const sent = this.#sent;
    if (sent !== null) this.#base = this.#base.compose(sent);
    this.#sent = this.#taken = null;
    this.#strays += 1;
    if (this.#strays === 1) this.#pauses.reset();
    else await this.#pauses.wait();
    if (this.#isClosed) return;
    try {
      const { rev, ops } = await this.#client.fetch(this.#name, undefined, NEVER);
      if (this.#isClosed) return;
      const fetched = new Delta(ops);
      const change = difference(this.#base, fetched);
      const from = this.#revision;
      this.#steps.clear();
      this.#begin(rev, fetched);
      this.#places.leap(sent === null ? change : sent.compose(change), from, rev);
      this.#show(change);
      this.dispatchEvent(new RebasedEvent(from, rev));
      this.#goOn();
    } catch (error) {
      this.#fail(error);
    }
  }

  /** @param {any} error */
  #fail(error) {
    if (this.#isClosed) return;
    this.#stop(error);
    if (error.name === "Closed") return;
    const lost = this.#isInDoubt ? this.#sent.compose(this.#typed) : this.#typed;
    this.dispatchEvent(new TroubleEvent(error, this.#told(lost), true));
  }

  /** @param {any} error */
  #stop(error) {
    if (this.#isClosed) return;
    this.#isClosed = true;
    this.#leave();
    this.#depart();
    if (error instanceof RichdError && error.code > 0) this.#keeper?.forget(error);
    else this.#keeper?.close(error);
    this.#pauses.end();
    for (const { reject } of this.#waiting.splice(0)) reject(error);
    this.#tell();
  }
}
