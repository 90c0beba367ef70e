// What is an operation, and what a server takes as one: docs/PROTOCOL.md, "Operations".

import { Delta, find, lengthOf } from "./delta.js";
import { Refusal, RichdError } from "./errors.js";

export const MAX_LINE = 65_536; // bytes of a line that is sent, without its end
const MOST_OP_BYTES = MAX_LINE - 256; // the rest of its line takes less
const MOST_NAME_BYTES = 64;
const MOST_LENGTH = 2 ** 32 - 1;
const MEMBERS = ["insert", "retain", "delete"];
const encoder = new TextEncoder();

/**
 * @typedef {import("./delta.js").Op} Op
 * @typedef {import("./delta.js").Value} Value
 */

/**
 * How many bytes an operation, several, or a text, take in a line, with the comma behind.
 * @param {Op | Op[] | string} op
 */
export const bytesOf = (op) => encoder.encode(JSON.stringify(op)).length + 1;

/** Whether a text has half of a character. @param {string} text */
export const hasHalf = (text) => /\p{Surrogate}/u.test(text);

/** @param {unknown} value */
const isObject = (value) => typeof value === "object" && value !== null && !Array.isArray(value);

/** @param {string} name */
const isName = (name) => name.length > 0 && encoder.encode(name).length <= MOST_NAME_BYTES && !hasHalf(name);

/** @param {unknown} value @param {boolean} mayBeNull */
function isValue(value, mayBeNull) {
  if (typeof value === "string") return !hasHalf(value);
  return Number.isSafeInteger(value) || typeof value === "boolean" || (mayBeNull && value === null);
}

/** @param {any} value */
const isLength = (value) => Number.isInteger(value) && value >= 0 && value <= MOST_LENGTH;

/**
 * Whether something is an operation.
 * @param {any} op
 * @returns {op is Op}
 */
export function isOp(op) {
  if (!isObject(op)) return false;
  const { attributes, ...rest } = op;
  const [kind, ...others] = Object.keys(rest);
  if (!MEMBERS.includes(kind) || others.length > 0) return false;
  if (kind !== "insert" && !isLength(op[kind])) return false;
  if (kind === "insert" && typeof op.insert !== "string") {
    const members = isObject(op.insert) ? Object.entries(op.insert) : [];
    if (members.length !== 1 || !isName(members[0][0]) || !isValue(members[0][1], false)) return false;
  }
  if (attributes === undefined) return true;
  if (kind === "delete" || !isObject(attributes)) return false;
  return Object.entries(attributes).every(([name, value]) => isName(name) && isValue(value, kind === "retain"));
}

/**
 * An operation of its own, without what says nothing: members that are undefined, and on an insert attributes that are null.
 * @param {any} op
 */
function copyOf(op) {
  if (!isObject(op)) return op;
  const copy = Object.fromEntries(Object.entries(op).filter(([, value]) => value !== undefined));
  if (isObject(op.insert)) copy.insert = { ...op.insert };
  if (!isObject(op.attributes)) return copy;
  const isVoid = op.insert !== undefined ? [null, undefined] : [undefined];
  copy.attributes = Object.fromEntries(Object.entries(op.attributes).filter(([, value]) => !isVoid.includes(value)));
  return copy;
}

/**
 * An operation's least part that can be sent alone: one character of a text, else the whole.
 * @param {Op} op
 */
const leastOf = (op) => (typeof op.insert === "string" ? { ...op, insert: op.insert.slice(0, 2) } : op);

/**
 * Takes operations over, in normal form. Throws what a server would refuse them by, whatever the document.
 * @param {any} ops
 */
export function takenOver(ops) {
  const delta = new Delta();
  if (!Array.isArray(ops)) throw new RichdError(Refusal.BadOps, "BadOps");
  for (const op of ops.map(copyOf)) {
    if (!isOp(op)) throw new RichdError(Refusal.BadOps, "BadOps");
    if (typeof op.insert === "string" && hasHalf(op.insert)) throw new RichdError(Refusal.CutsPair, "CutsPair");
    const mayBeLong = op.attributes !== undefined || typeof op.insert === "object";
    if (mayBeLong && bytesOf(leastOf(op)) > MOST_OP_BYTES) throw new RichdError(Refusal.LineTooLong, "LineTooLong");
    delta.push(op);
  }
  return delta.chop();
}

/**
 * How many units of a document a change speaks of.
 * @param {{ ops: Op[] }} delta
 */
export const reachOf = ({ ops }) => ops.reduce((sum, op) => sum + (op.insert === undefined ? lengthOf(op) : 0), 0);

/**
 * How many units a change adds to a document.
 * @param {{ ops: Op[] }} delta
 */
export const growthOf = ({ ops }) => ops.reduce((sum, op) => sum + (op.insert === undefined ? -(op.delete ?? 0) : lengthOf(op)), 0);

/**
 * Whether a change in normal form begins or ends between the two halves of a character.
 * @param {{ ops: Op[] }} delta
 * @param {{ ops: Op[] }} document
 */
export function cutsPair(delta, document) {
  /** @type {ReturnType<typeof find> | undefined} */
  let found;
  let place = 0;
  for (const op of delta.ops) {
    if (isHalved(place)) return true;
    if (op.insert === undefined) place += lengthOf(op);
  }
  return isHalved(place);

  /** @param {number} at */
  function isHalved(at) {
    found = find(document.ops, at, found);
    const text = document.ops[found.index]?.insert;
    if (typeof text !== "string" || at === found.start) return false;
    return /^[\ud800-\udbff][\udc00-\udfff]$/.test(text.slice(at - found.start - 1, at - found.start + 1));
  }
}
