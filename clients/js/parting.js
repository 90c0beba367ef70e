// How an edit that is too long for one line is sent in several.

import { Delta, areSame, lengthOf } from "./delta.js";
import { Refusal } from "./errors.js";
import { MAX_LINE, bytesOf, takenOver } from "./operations.js";

export const ROOM = 48 * 1024; // bytes of an edit's operations, in a line that may have 65,536
export const LEAST_ROOM = 64;
const MOST_OPS = 1_000; // of the 1,024 that a message may have
const MOST_CHARACTER = 12; // bytes of a character in JSON

/** Whether a server takes it in parts alone. @param {{ code: number }} error  by which it was refused */
export const isTooLong = ({ code }) => [Refusal.TooManyOps, Refusal.TooWide, Refusal.LineTooLong].includes(code);

/**
 * Whether operations are longer than a message may be.
 * @param {import("./delta.js").Op[]} ops
 */
export const isLong = (ops) => ops.length > MOST_OPS || bytesOf(ops) > MAX_LINE - 256;

/**
 * What is to be inserted behind what a document has, so that it has all of its contents; undefined where it has something else.
 * @param {import("./delta.js").Op[]} made
 * @param {import("./delta.js").Op[]} ops  its contents
 */
export function restOf(made, ops) {
  const [beginning, whole] = [new Delta(made), takenOver(ops)];
  const length = beginning.length();
  if (!areSame(beginning, whole.slice(0, length))) return undefined;
  const rest = new Delta().retain(length);
  for (const op of whole.slice(length).ops) rest.push(op);
  return rest.chop();
}

/**
 * The longest beginning of a text that takes so many bytes as JSON, and parts no character; at least one character.
 * @param {string} text
 * @param {number} bytes
 */
function beginningOf(text, bytes) {
  let [end, taken] = [0, 0];
  for (const character of text) {
    taken += bytesOf(character) - 3;
    if (taken > bytes && end > 0) break;
    end += character.length;
  }
  return text.slice(0, end);
}

/** @param {import("./delta.js").Op} op */
const doesNothing = (op) => op.retain !== undefined && op.attributes === undefined;

/**
 * Parts an edit in two that do the same one after the other. The first takes about so many bytes as JSON, and does something at least:
 * one operation, or one character. The second is made on what the first made, and has no operations where the first is the whole.
 * @param {{ ops: import("./delta.js").Op[] }} delta
 * @param {number} room
 * @returns {[Delta, Delta]}
 */
export function parted({ ops }, room) {
  const first = new Delta();
  let [index, free] = [0, room];
  for (; index < ops.length && index < MOST_OPS && bytesOf(ops[index]) <= free; index += 1) {
    first.push(ops[index]);
    free -= bytesOf(ops[index]);
  }
  const later = ops.slice(index);
  const [op] = later;
  const hasNothing = first.ops.every(doesNothing);
  if (op !== undefined && typeof op.insert === "string") {
    const left = free - bytesOf({ ...op, insert: "" });
    if (hasNothing || (index < MOST_OPS && left >= MOST_CHARACTER)) {
      const beginning = beginningOf(op.insert, left);
      first.push({ ...op, insert: beginning });
      later[0] = { ...op, insert: op.insert.slice(beginning.length) };
    }
  } else if (op !== undefined && hasNothing) {
    first.push(later.shift());
  }
  const rest = new Delta();
  if (later.length > 0) rest.retain(first.ops.reduce((length, op) => length + (op.delete === undefined ? lengthOf(op) : 0), 0));
  for (const op of later) rest.push(op);
  return [first.chop(), rest.chop()];
}
