// What a server says. Each line is checked once, as it comes, so nothing behind it has to.

import { isOp } from "./operations.js";

const MOST_UNITS = 2 ** 27; // of a line that comes: a document of the largest store takes less

/**
 * @typedef {import("./session.js").Message} Message
 * @typedef {import("./session.js").Reply} Reply
 */

/** Parts bytes in lines. */
export class LineReader {
  #most;
  #decoder = new TextDecoder("utf-8", { fatal: true });
  #part = ""; // of the line that is still being read

  /** @param {number} [most]  units of a line */
  constructor(most = MOST_UNITS) {
    this.#most = most;
  }

  /**
   * The lines that end in these bytes; undefined where one is too long, or no UTF-8.
   * @param {Uint8Array} bytes
   * @returns {string[] | undefined}
   */
  read(bytes) {
    let text;
    try {
      text = this.#decoder.decode(bytes, { stream: true });
    } catch {
      return undefined;
    }
    const lines = text.split("\n");
    lines[0] = this.#part + lines[0];
    this.#part = lines.pop();
    return this.#part.length > this.#most ? undefined : lines;
  }
}

/** @param {unknown} value */
const isText = (value) => typeof value === "string";
/** @param {any} value */
const isNumber = (value) => Number.isSafeInteger(value) && value >= 0;
/** @param {any} at */
const isPlace = (at) => at === null || (Array.isArray(at) && at.length === 2 && at.every(isNumber));
/** @param {any} ops */
const areOps = (ops) => Array.isArray(ops) && ops.every(isOp);
/** @param {any} ops */
const areInserts = (ops) => areOps(ops) && ops.every(({ insert }) => insert !== undefined);

/**
 * A line of news, one of somebody's presence, a refusal, or what may be another reply; undefined where it is none of them.
 * @param {string} text
 * @returns {Reply | undefined}
 */
export function readLine(text) {
  let line;
  try {
    line = JSON.parse(text);
  } catch {
    return undefined;
  }
  if (typeof line !== "object" || line === null) return undefined;
  const { doc, news, ended, presence, code, ops } = line;
  if (news !== undefined) return isText(doc) && isNumber(news) && areOps(ops) ? line : undefined;
  if (ended !== undefined) return isText(doc) && isNumber(ended) ? line : undefined;
  if (presence !== undefined) return isText(doc) && isNumber(presence) && isText(line.user) && isNumber(line.rev) && isPlace(line.at) ? line : undefined;
  if (code !== undefined) return isNumber(code) && code > 0 && isText(line.error) ? line : undefined;
  return isText(line.ok) ? line : undefined;
}

/** @type {Record<string, (reply: any, message: Message) => boolean>} */
const REPLIES = {
  hello: ({ ok }) => ok === "hello",
  fetch: ({ ok, rev, ops }) => ok === "doc" && isNumber(rev) && areInserts(ops),
  since: ({ ok, rev, deltas }) => ok === "since" && isNumber(rev) && Array.isArray(deltas) && deltas.every(areOps),
  subscribe: ({ ok, rev }) => ok === "subscribed" && isNumber(rev),
  unsubscribe: ({ ok }) => ok === "unsubscribed",
  lease: ({ ok, lease, epoch, n }) => ok === "lease" && isText(lease) && isNumber(epoch) && (n === undefined || (isNumber(n) && n > 0)),
  presence: ({ ok }) => ok === "presence",
};

/**
 * Whether a reply that is no refusal answers a message.
 * @param {Reply} reply
 * @param {Message} message
 */
export function isReplyTo(reply, message) {
  if (reply.doc !== message.doc) return false;
  if (message.n === undefined) return REPLIES[message.do](reply, message);
  return (reply.ok === "taken" || reply.ok === "again") && reply.n === message.n && isNumber(reply.rev);
}
