// Who else is in a document, and where: a gateway tells those who tell where they are themselves.

import { lengthOf } from "./delta.js";
import { Emitter } from "./emitter.js";
import { Refusal } from "./errors.js";
import { PresenceEvent } from "./events.js";

const PACE = 100; // milliseconds, at most so often it is told where its own user is
const PAUSE = 1_000; // milliseconds, where the gateway couldn't take it
const MOST_PAST = 1_000; // revisions over which the places of others are moved that are told late
const MOST_BEHIND = 500; // revisions; then it is told anew, so that who comes new can move it

/**
 * @typedef {import("./delta.js").Delta} Delta
 * @typedef {import("./delta.js").Op} Op
 * @typedef {import("./session.js").Reply} Reply
 *
 * @typedef {object} Range  a caret, of length 0, or a selection of what is shown, in UTF-16 code units, as Quill has it
 * @property {number} index
 * @property {number} length
 *
 * @typedef {object} Other  somebody else who is in the document
 * @property {string} id  of his connection: another one after it was begun again
 * @property {string} user  the name by which the gateway knows him
 * @property {Range} range
 *
 * @typedef {[number, number]} Place  from one place of a revision to another
 *
 * @typedef {object} Surroundings  what is asked of the document and of its client
 * @property {() => number} revision
 * @property {() => { ops: Op[] }[]} pending  what is shown past that revision: what was sent, and what was typed
 * @property {(rev: number, at: Place | null) => Promise<boolean>} tell  whether there was a gateway to tell it to
 * @property {(rev: number) => Promise<{ rev: number, deltas: Op[][] }>} since
 * @property {(ops: Op[]) => Delta} deltaOf
 */

/**
 * Where a place was before a change: what was inserted lies at the place where it was put in.
 * @param {{ ops: Op[] }} change
 * @param {number} index
 */
export function placeBefore({ ops }, index) {
  let [before, after] = [0, 0]; // where the next operation begins
  for (const op of ops) {
    const length = lengthOf(op);
    if (op.delete === undefined && index <= after + length) return op.insert === undefined ? before + index - after : before;
    if (op.delete === undefined) after += length;
    if (op.insert === undefined) before += length;
  }
  return before + index - after;
}

/**
 * A place after a change. What its own user does there moves him, and what others do there stands behind him.
 * @param {Place} place
 * @param {{ ops: Op[] }} change
 * @param {boolean} isHisOwn
 * @returns {Place}
 */
const moved = (place, change, isHisOwn) =>
  /** @type {Place} */ (place.map((index) => /** @type {Delta} */ (change).transformPosition(index, !isHisOwn)));

/** @param {Place} place @returns {Range} */
const rangeOf = ([from, to]) => ({ index: Math.min(from, to), length: Math.abs(to - from) });

/** @param {unknown} one @param {unknown} other */
const areAlike = (one, other) => JSON.stringify(one) === JSON.stringify(other);

/**
 * Where this document's user is, and where others are. Nobody is told of before the first `set`, and nothing is sent to a server that is no
 * gateway. Sends "change" where somebody comes, goes or moves.
 * @extends {Emitter<{ change: PresenceEvent }>}
 */
export class Presence extends Emitter {
  #places;

  /** @param {Places} places */
  constructor(places) {
    super();
    this.#places = places;
    places.onChange = () => this.dispatchEvent(new PresenceEvent(this.others));
  }

  /** Those who are in the document too. @returns {Other[]} */
  get others() {
    return this.#places.others;
  }

  /**
   * Says where its own user is in what is shown, or that he has left, with null: then the others aren't told of any more either. What is typed
   * and what others do moves him from then on.
   * @param {Range | null} range
   */
  set(range) {
    this.#places.set(range);
  }
}

/** The places of all, as the document changes. */
export class Places {
  #document;
  /** @type {Place | null} where its own user is in what is shown */
  #own = null;
  /** @type {{ at: Place, rev: number } | null} what the others were told, and what they make of it since */
  #told = null;
  /** @type {Map<number, { user: string, at: Place, rev: number }>} by their presence's number; `at` is of revision `rev` */
  #others = new Map();
  /** @type {{ change: { ops: Op[] }, isOwn: boolean }[]} what made the last revisions */
  #past = [];
  #isAsking = false; // for what made older ones
  /** @type {Other[]} */
  #shown = [];
  #toldAt = -Infinity;
  /** @type {ReturnType<typeof setTimeout> | undefined} */
  #timer;
  onChange = () => {};

  /** @param {Surroundings} document */
  constructor(document) {
    this.#document = document;
  }

  /** @returns {Other[]} */
  get others() {
    return this.#shown.map(({ id, user, range }) => ({ id, user, range: { ...range } }));
  }

  /** @param {Range | null} range */
  set(range) {
    if (range === null) return this.#leave();
    this.#own = [range.index, range.index + range.length];
    if (this.#told === null || this.#isToldOtherwise()) this.#tellSoon();
  }

  /** A session has begun. */
  begin() {
    this.#told = null;
    this.#tellSoon();
  }

  /** The session has ended, so nobody is known any more. */
  end() {
    clearTimeout(this.#timer);
    this.#timer = undefined;
    this.#others.clear();
    this.#told = null;
    this.settle();
  }

  /**
   * What is shown is another.
   * @param {Delta} change
   * @param {boolean} isOwn  its user did it
   */
  move(change, isOwn) {
    if (this.#own !== null) this.#own = moved(this.#own, change, isOwn);
  }

  /**
   * A revision has come.
   * @param {{ ops: Op[] }} change  what made it
   * @param {number} revision
   * @param {boolean} isOwn
   */
  step(change, revision, isOwn) {
    if (this.#own === null) return;
    this.#past.push({ change, isOwn });
    if (this.#past.length > MOST_PAST) this.#past.shift();
    if (this.#told !== null) this.#told.at = moved(this.#told.at, change, true);
    for (const other of this.#others.values()) {
      if (other.rev !== revision - 1) continue;
      Object.assign(other, { rev: revision, at: moved(other.at, change, !isOwn) });
    }
  }

  /**
   * The document was fetched anew.
   * @param {{ ops: Op[] }} change  what makes it of the revision before
   * @param {number} from
   * @param {number} to
   */
  leap(change, from, to) {
    this.#past = [];
    if (this.#told !== null) this.#told.at = moved(this.#told.at, change, true);
    for (const other of this.#others.values()) {
      if (other.rev === from) Object.assign(other, { rev: to, at: moved(other.at, change, true) });
    }
  }

  /**
   * Takes a line of somebody's presence.
   * @param {Reply} line
   */
  take({ presence, user, at, rev }) {
    if (this.#own === null) return;
    if (at === null) this.#others.delete(presence);
    else this.#others.set(presence, { user, at, rev });
    this.#catchUp();
    this.settle();
  }

  /** Tells what is another than before. */
  settle() {
    if (this.#own !== null && this.#isToldOtherwise()) this.#tellSoon();
    const revision = this.#document.revision();
    const pending = this.#document.pending();
    const shown = [...this.#others].filter(([, { rev }]) => rev === revision).map(([presence, { user, at }]) => {
      const range = rangeOf(pending.reduce((place, change) => moved(place, change, false), at));
      return { id: String(presence), user, range };
    });
    if (areAlike(shown, this.#shown)) return;
    this.#shown = shown;
    this.onChange();
  }

  /** Where its own user is at the document's revision. @returns {Place} */
  #ownAtRevision() {
    const pending = this.#document.pending().reverse();
    return /** @type {Place} */ (this.#own.map((index) => pending.reduce((place, change) => placeBefore(change, place), index)));
  }

  #isToldOtherwise() {
    if (this.#told === null) return false; // it will be, if there is a gateway
    return !areAlike(this.#told.at, this.#ownAtRevision()) || this.#document.revision() - this.#told.rev > MOST_BEHIND;
  }

  /** @param {number} [pause] */
  #tellSoon(pause = this.#toldAt + PACE - performance.now()) {
    if (this.#own !== null) this.#timer ??= setTimeout(() => this.#tell(), Math.max(0, pause));
  }

  async #tell() {
    this.#timer = undefined;
    this.#toldAt = performance.now();
    const told = { at: this.#ownAtRevision(), rev: this.#document.revision() };
    this.#told = told;
    try {
      if (!(await this.#document.tell(told.rev, told.at))) this.#told = null;
    } catch (error) {
      if (error.code === Refusal.NoMemory) this.#tellSoon(PAUSE);
    }
  }

  #leave() {
    if (this.#own === null) return;
    if (this.#told !== null) this.#document.tell(this.#document.revision(), null).catch(() => {});
    this.#own = null;
    this.#past = [];
    this.end();
  }

  // Moves those who were told of at an older revision to the document's. What made that is asked for where it isn't here.
  async #catchUp() {
    for (const other of this.#others.values()) this.#catchUpOne(other);
    const oldest = Math.min(...[...this.#others.values()].map(({ rev }) => rev));
    if (this.#isAsking || oldest >= this.#known) return;
    this.#isAsking = true;
    const since = await this.#document.since(oldest).catch(() => undefined); // it is held no more: they are shown once they move
    this.#isAsking = false;
    const known = this.#known;
    if (since === undefined || known <= oldest || known > since.rev) return;
    const older = since.deltas.slice(0, known - oldest);
    this.#past.unshift(...older.map((ops) => ({ change: this.#document.deltaOf(ops), isOwn: false })));
    this.#catchUp();
    this.settle();
  }

  /** The revision from which on it is known what made the next one. */
  get #known() {
    return this.#document.revision() - this.#past.length;
  }

  /** @param {{ at: Place, rev: number }} other */
  #catchUpOne(other) {
    const revision = this.#document.revision();
    const first = this.#past.length - (revision - other.rev);
    if (first < 0 || other.rev >= revision) return;
    for (const { change, isOwn } of this.#past.slice(first)) other.at = moved(other.at, change, !isOwn);
    other.rev = revision;
  }
}
