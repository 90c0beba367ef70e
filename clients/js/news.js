// News of one document, for all who follow it in one session.

import { RichdError } from "./errors.js";

/**
 * @typedef {object} Follower
 * @property {number} rev  the last revision that it was told
 * @property {(ops: import("./delta.js").Op[], rev: number) => void} onNews
 * @property {(error: RichdError) => void} onEnd  nothing more comes: as TooOld, where the next revision is no longer held
 */

/** A session has one subscription of a document. It begins at the lowest revision that a follower has. */
export class News {
  #ask;
  #isAsked = false;
  /** @type {Set<Follower>} */
  #followers = new Set();

  /** @param {(message: import("./session.js").Message, settle: import("./session.js").Settle) => void} ask  asks something of the document */
  constructor(ask) {
    this.#ask = ask;
  }

  /** Whether nobody follows. */
  get isIdle() {
    return this.#followers.size === 0;
  }

  /** @param {Follower} follower */
  join(follower) {
    this.#followers.add(follower);
    this.renew();
  }

  /** @param {Follower} follower */
  leave(follower) {
    if (!this.#followers.delete(follower) || this.#followers.size > 0) return;
    this.#ask({ do: "unsubscribe" }, () => {});
  }

  /** Subscribes from the lowest revision on. What somebody has already been told is dropped when it comes again. */
  renew() {
    if (this.#isAsked || this.#followers.size === 0) return;
    this.#isAsked = true;
    const rev = this.#lowest();
    this.#ask({ do: "subscribe", rev }, (error) => {
      this.#isAsked = false;
      if (error) this.#end(error, rev);
      if (error || this.#lowest() < rev) this.renew();
    });
  }

  /**
   * Takes a line of news.
   * @param {import("./session.js").Reply} line
   */
  take(line) {
    if ("ended" in line) {
      this.#end(new RichdError(line.ended, "TooOld"), this.#lowest());
      this.renew();
      return;
    }
    for (const follower of [...this.#followers]) {
      if (line.news !== follower.rev + 1) continue;
      follower.rev = line.news;
      follower.onNews(line.ops, line.news);
    }
  }

  /**
   * Ends it for all.
   * @param {RichdError} error
   */
  end(error) {
    this.#end(error, Infinity);
  }

  #lowest() {
    return Math.min(...[...this.#followers].map(({ rev }) => rev));
  }

  /** @param {RichdError} error @param {number} rev */
  #end(error, rev) {
    for (const follower of [...this.#followers]) {
      if (follower.rev > rev) continue;
      this.#followers.delete(follower);
      follower.onEnd(error);
    }
  }
}
