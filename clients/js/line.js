// What is asked of one document, in the order in which it was asked. It numbers the source's commands.

import { Refusal, RichdError } from "./errors.js";
import { areSame } from "./leases.js";
import { firstUnused } from "./numbers.js";
import { Pauses } from "./pauses.js";

const MOST_COMMANDS = 16; // that are on their way: a server answers so many of a source's last numbers as taken before

/**
 * @typedef {import("./session.js").Reply} Reply
 * @typedef {import("./leases.js").Lease} Lease
 *
 * @typedef {object} Numbered  what a command is known by
 * @property {number} number
 * @property {Lease} lease  under which the number counts
 *
 * @typedef {object} Item  something that was asked
 * @property {import("./session.js").Message} message  without its number
 * @property {boolean} isCommand
 * @property {import("./session.js").Settle} settle  is called once with what it came to
 * @property {boolean} [isSent]  in the session that there is now
 * @property {number} [sendings]
 * @property {number} [number]
 * @property {boolean} [counts]  its number was the next one
 * @property {boolean} [isBehind]  since it was sent, one before it wasn't taken: then it is answered Gap, NoDocument or Exists, and is
 *   sent again
 * @property {RichdError} [trouble]  what it was refused by, and is sent again for all the same
 * @property {(error: RichdError) => void} [onRetry]  is told of each
 * @property {(numbered: Numbered) => Promise<void>} [hold]  is waited for before it is sent under a number
 * @property {Numbered} [holding]  what it is held for
 * @property {Numbered} [held]  what it was held for
 * @property {Numbered} [kept]  what it was sent as before this program began, if it was
 * @property {boolean} [isInDoubt]  its number is of another lease, or neither the next one nor the last one that is used, so it may be another's
 * @property {boolean} [needsNoLease]  in the session that there is now: it creates a document that is nowhere
 */

/**
 * At most 16 commands of a document are on their way. What is asked behind a command that waits does so too, so that a read sees what
 * was commanded before it. What isn't answered when the session ends is sent again in the next one, a command with its number, in the
 * order in which it was asked.
 *
 * A gateway lends a name for the document, and the numbers count under that lease alone. So it is asked for in each session, before the first
 * command. Where it is another than before, what was sent and isn't answered ends with "InDoubt", and what wasn't sent gets new numbers.
 */
export class Line {
  #doc;
  /** @type {import("./session.js").Session | null} */
  #session = null;
  /** @type {Item[]} */
  #items = [];
  /** @type {number | undefined} the number of the next command, where it is known */
  #number;
  /** @type {Lease | undefined} under which it counts */
  #lease;
  #isLeased = false; // and is known to be held in the session that there is now
  #believesGateway = true; // in the number that it tells
  #isDeleted = false; // as far as is known: then a creation has the next number, and else the first
  #isLearning = false;
  #pauses = new Pauses();
  /** @type {ReturnType<typeof setTimeout> | undefined} */
  #pause;

  /**
   * @param {string} doc
   * @param {boolean} [isNew]  the source is used for the first time, so its first number is 1
   */
  constructor(doc, isNew) {
    this.#doc = doc;
    if (isNew) this.beginNumbers();
  }

  /** The source turns out to be new, before there is a session. */
  beginNumbers() {
    this.#number = 1;
  }

  /** Whether nothing of it is asked, or waits. */
  get isIdle() {
    return this.#items.length === 0 && this.#pause === undefined && !this.#isLearning;
  }

  /** @param {Item} item */
  add(item) {
    this.#items.push(item);
    this.#pump();
  }

  /**
   * Takes back what wasn't sent yet. What was sent stays: it may have been taken, and then its number is used.
   * @param {Item} item
   */
  remove(item) {
    if (item.isSent || item.sendings) return;
    if (item.number !== undefined) this.#free(item, item.number);
    this.#items = this.#items.filter((other) => other !== item);
  }

  /**
   * Goes on in a session, or waits for the next one.
   * @param {import("./session.js").Session | null} session
   */
  set session(session) {
    this.#session = session;
    this.#isLeased = false;
    for (const item of this.#items) item.needsNoLease = false;
    if (session?.isGateway === false) this.#goOnUnder({ name: session.source, epoch: 0 });
    this.#pump();
  }

  /**
   * Settles all with one error, except for what was sent.
   * @param {RichdError} error
   */
  refuse(error) {
    clearTimeout(this.#pause);
    const refused = this.#items.filter((item) => !item.isSent);
    this.#items = this.#items.filter((item) => item.isSent);
    for (const item of refused) item.settle(error);
  }

  /** @returns {void} */
  #pump() {
    let commands = 0; // that are on their way
    for (const item of [...this.#items]) {
      if (this.#session === null || this.#pause !== undefined || this.#isLearning) return;
      if (!this.#items.includes(item)) continue; // it was refused as it was sent
      if (item.isCommand && commands === MOST_COMMANDS) return;
      if (item.isSent && item.isBehind) return; // its answer comes first
      if (!item.isSent && item.isCommand && !this.#isLeased && !item.needsNoLease) {
        if (commands === 0) this.#askLease(item);
        return;
      }
      if (!item.isSent && item.isCommand && !this.#hasNumber(item)) {
        if (commands === 0) this.#learn();
        return;
      }
      if (item.isInDoubt) return this.#end(item, new RichdError(0, "InDoubt"));
      if (!item.isSent && !this.#isHeld(item, item.held)) return this.#hold(item);
      if (item.isCommand) commands += 1;
      if (!item.isSent) this.#send(item);
    }
  }

  /** @param {Item} item */
  #hasNumber(item) {
    if (item.number !== undefined) return true;
    if (item.kept !== undefined) return this.#hasKeptNumber(item);
    item.number = item.message.do === "create" && !this.#isDeleted && !this.#wasAnothers ? 1 : this.#number;
    item.counts = item.number !== undefined && item.number === this.#number;
    if (item.counts) this.#number += 1;
    if (item.message.do === "delete" && item.number !== undefined) this.#isDeleted = true;
    return item.number !== undefined;
  }

  // Of a command that was kept it isn't known whether it was taken: then its number is the last one that is used, else the next one.
  /** @param {Item} item */
  #hasKeptNumber(item) {
    const { number, lease } = item.kept;
    const isOwn = areSame(lease, this.#lease);
    if (isOwn && this.#number === undefined) return false;
    item.counts = isOwn && number === this.#number;
    item.isInDoubt = !item.counts && !(isOwn && number === this.#number - 1);
    if (item.counts) this.#number += 1;
    Object.assign(item, { number, sendings: 1, held: { number, lease: this.#lease } });
    return true;
  }

  /** Whether the name that is lent was another's before, so a document's first number may be. */
  get #wasAnothers() {
    return this.#lease?.epoch > 1;
  }

  /** @param {Item} item @param {Numbered} [held] */
  #isHeld({ hold, number }, held) {
    return hold === undefined || (held?.number === number && held.lease === this.#lease);
  }

  /** @param {Item} item */
  #hold(item) {
    if (this.#isHeld(item, item.holding)) return;
    const holding = { number: item.number, lease: this.#lease };
    item.holding = holding;
    item.hold(holding).then(
      () => {
        item.held = holding;
        this.#pump();
      },
      (error) => this.#items.includes(item) && this.#end(item, error),
    );
  }

  /**
   * Ends a command that isn't sent: its number is free.
   * @param {Item} item
   * @param {any} error
   */
  #end(item, error) {
    this.#free(item, item.number);
    this.#items.splice(this.#items.indexOf(item), 1);
    item.settle(error);
    this.#pump();
  }

  /**
   * The number of a command that isn't taken goes to the next one, and those of the commands behind it to those behind that.
   * @param {Item} item
   * @param {number | undefined} next  the number of the next command
   */
  #free(item, next) {
    if (!item.counts) return;
    this.#number = next;
    for (const other of this.#items.slice(this.#items.indexOf(item) + 1)) {
      if (!other.counts) continue;
      other.isBehind = other.isSent;
      other.number = undefined;
    }
  }

  /** @param {Item} item */
  #send(item) {
    item.isSent = true;
    item.isBehind = false;
    item.sendings = (item.sendings ?? 0) + 1;
    const message = item.isCommand ? { ...item.message, n: item.number } : item.message;
    this.#session.send(message, (error, reply) => this.#settle(item, error, reply));
  }

  /** @param {Item} item @param {RichdError | null} error @param {Reply} [reply] */
  #settle(item, error, reply) {
    if (error?.code === Refusal.Deleted) this.#isDeleted = true;
    if (error?.code === 0) {
      item.isSent = false; // the session has ended, and the next one goes on here
    } else if (error?.code === Refusal.NoMemory || error?.code === Refusal.StoreFailed) {
      item.isSent = false;
      item.trouble = error;
      for (const other of this.#items.slice(this.#items.indexOf(item) + 1)) other.isBehind ||= item.isCommand && other.isCommand && other.isSent;
      this.#rest();
      item.onRetry?.(error);
    } else if (item.isBehind && [Refusal.Gap, Refusal.NoDocument, Refusal.Exists].includes(error?.code)) {
      Object.assign(item, { isSent: false, sendings: 0 });
      this.#pump();
    } else if (item.isCommand && this.#isMisnumbered(item, error, reply)) {
      this.#free(item, undefined);
      Object.assign(item, { isSent: false, sendings: 0, number: undefined });
      this.#believesGateway = false;
      this.#isLeased = !this.#session.isGateway; // the name may have been lent to another
      this.#pump();
    } else {
      this.#pauses.reset();
      if (item.isCommand && error) this.#free(item, item.number);
      if (item.isCommand && !error) this.#count(item, reply);
      this.#items.splice(this.#items.indexOf(item), 1);
      item.settle(error, reply);
      this.#pump();
    }
  }

  /**
   * Whether the number shows that somebody else has used this source, as this program may have before it stopped.
   * @param {Item} item
   * @param {RichdError | null} error
   * @param {Reply} [reply]
   */
  #isMisnumbered(item, error, reply) {
    if (item.message.do === "create" && item.number === 1 && error?.code !== Refusal.OldNumber) return false;
    if (item.message.do === "create") this.#isDeleted = true; // else its number would say nothing
    if (error?.code === Refusal.Gap) return true;
    return item.sendings === 1 && (error?.code === Refusal.OldNumber || reply?.ok === "again");
  }

  /** @param {Item} item @param {Reply} reply */
  #count(item, reply) {
    if (item.message.do !== "create") return;
    if (reply.ok === "taken") this.#isDeleted = false;
    if (reply.ok === "taken") this.#number ??= 2;
    else if (item.counts && item.sendings === 1) this.#free(item, undefined); // it was taken long ago, and others behind it perhaps
  }

  #rest() {
    clearTimeout(this.#pause);
    this.#pause = setTimeout(() => {
      this.#pause = undefined;
      this.#pump();
    }, this.#pauses.next());
  }

  /**
   * Asks the gateway which name it lends for the document, for a command that is to be sent. The creation of a document that is nowhere yet
   * is sent without: whatever name it gets, it is its first command.
   * @param {Item} item
   */
  #askLease(item) {
    this.#isLearning = true;
    this.#session.send({ do: "lease", doc: this.#doc }, (error, reply) => {
      this.#isLearning = false;
      const isThere = this.#items.includes(item);
      if (error?.code === 0) return; // the next session asks again
      if (error === null) {
        this.#goOnUnder({ name: reply.lease, epoch: reply.epoch }, this.#believesGateway ? reply.n : undefined);
      } else if (error.code === Refusal.NoMemory || error.code === Refusal.StoreFailed) {
        item.trouble = error;
        this.#rest();
        if (isThere) item.onRetry?.(error);
      } else if (error.code === Refusal.NoDocument && item.message.do === "create") {
        item.needsNoLease = true;
        this.#number = 1;
      } else if (isThere) {
        const mayBeTaken = item.sendings > 0 || item.kept !== undefined;
        return this.#end(item, mayBeTaken ? new RichdError(0, "InDoubt", error) : error);
      }
      this.#pump();
    });
  }

  /**
   * Goes on under a lease. Under another one than before the numbers of that are worth nothing.
   * @param {Lease} lease
   * @param {number} [number]  of the next command, where a gateway tells it
   */
  #goOnUnder(lease, number) {
    this.#isLeased = true;
    if (areSame(lease, this.#lease)) return void (this.#number ??= number);
    const isFirst = this.#lease === undefined;
    this.#lease = lease;
    if (isFirst && this.#items.some(({ counts }) => counts)) return; // a creation was sent without a lease, and so under this one
    this.#number = number ?? (isFirst && !this.#wasAnothers ? this.#number : undefined);
    const inDoubt = this.#items.filter((item) => item.isCommand && item.sendings > 0);
    this.#items = this.#items.filter((item) => !inDoubt.includes(item));
    for (const item of this.#items) item.number = undefined;
    for (const item of inDoubt) item.settle(new RichdError(0, "InDoubt"));
  }

  // Finds the next number, and goes on. A probe is an edit on a base that no document has reached, so it is never taken: the answer
  // is `again` or OldNumber up to the last number, and Gap, Future or another refusal above it.
  async #learn() {
    this.#isLearning = true;
    const session = this.#session;
    /** @param {number} n @returns {Promise<boolean>} */
    const isUsed = (n) =>
      new Promise((resolve, reject) => {
        session.send({ do: "edit", doc: this.#doc, n, base: 2 ** 53 - 1, ops: [] }, (error, reply) => {
          const isUnknown = [0, Refusal.NoMemory, Refusal.StoreFailed].includes(error?.code);
          if (isUnknown) reject(error);
          else resolve(reply !== undefined || error.code === Refusal.OldNumber);
        });
      });
    try {
      this.#number = await firstUnused(isUsed);
      this.#believesGateway = true;
    } catch (error) {
      if (error.code !== 0) this.#rest();
    }
    this.#isLearning = false;
    this.#pump();
  }
}
