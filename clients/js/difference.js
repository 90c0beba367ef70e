// What makes one document of another, where nobody knows what happened in between.

import { Delta, areAlike, lengthOf, valueOf } from "./delta.js";

const MOST_STEPS = 1_000; // differences that are looked for; past them one change replaces what differs
const LINE = /[^\n]*\n|[^\n]+$/g;
// A word, or a character alone where no blanks part the words
const WORD = /[\p{Ideographic}\p{Script=Hiragana}\p{Script=Katakana}]|[\p{L}\p{N}\p{M}_]+|[^]/gu;
const FIRST_PRIVATE = 0xe000; // the characters that stand for embeds
const PRIVATES = 6_400;

/**
 * @typedef {import("./delta.js").Op} Op
 * @typedef {"keep" | "insert" | "delete"} Kind
 * @typedef {[Kind, number]} Stretch  so many units that both have, or one of them
 */

/**
 * A document as a text in which a character stands for each embed, mostly the same one for the same embed alone.
 * @param {{ ops: Op[] }} document
 */
function textOf({ ops }) {
  return ops.map(({ insert }) => (typeof insert === "string" ? insert : characterOf(JSON.stringify(insert)))).join("");
}

/** @param {string} embed */
function characterOf(embed) {
  let sum = 0;
  for (let index = 0; index < embed.length; index += 1) sum = (Math.imul(sum, 31) + embed.charCodeAt(index)) >>> 0;
  return String.fromCharCode(FIRST_PRIVATE + (sum % PRIVATES));
}

/**
 * The shortest way from one list to another, after Myers, from its end on; undefined where it is too long.
 * @param {string[]} old
 * @param {string[]} young
 * @returns {Kind[] | undefined}
 */
function wayBetween(old, young) {
  /** @type {Map<number, number>[]} how far each diagonal came, before each step */
  const steps = [];
  const far = new Map([[1, 0]]);
  const isDown = (/** @type {Map<number, number>} */ reached, /** @type {number} */ step, /** @type {number} */ diagonal) =>
    diagonal === -step || (diagonal !== step && reached.get(diagonal - 1) < reached.get(diagonal + 1));
  for (let step = 0; ; step += 1) {
    if (step > MOST_STEPS) return undefined;
    steps.push(new Map(far));
    for (let diagonal = -step; diagonal <= step; diagonal += 2) {
      let at = isDown(far, step, diagonal) ? far.get(diagonal + 1) : far.get(diagonal - 1) + 1;
      while (at < old.length && at - diagonal < young.length && old[at] === young[at - diagonal]) at += 1;
      far.set(diagonal, at);
      if (at >= old.length && at - diagonal >= young.length) return wayBack(step);
    }
  }

  /** @param {number} step */
  function wayBack(step) {
    /** @type {Kind[]} */
    const way = [];
    let [at, other] = [old.length, young.length];
    for (; step > 0; step -= 1) {
      const reached = steps[step];
      const diagonal = at - other;
      const down = isDown(reached, step, diagonal);
      const from = reached.get(down ? diagonal + 1 : diagonal - 1);
      const kept = at - (down ? from : from + 1);
      for (let index = 0; index < kept; index += 1) way.push("keep");
      way.push(down ? "insert" : "delete");
      [at, other] = [from, from - (down ? diagonal + 1 : diagonal - 1)];
    }
    for (let index = 0; index < at; index += 1) way.push("keep");
    return way;
  }
}

/**
 * The stretches of two lists, in parts of texts; of what both have not, `within` finds the stretches.
 * @param {string[]} old
 * @param {string[]} young
 * @param {(old: string, young: string) => Stretch[]} within
 * @returns {Stretch[]}
 */
function stretchesOf(old, young, within) {
  const way = wayBetween(old, young)?.reverse() ?? [...old.map(() => "delete"), ...young.map(() => "insert")];
  /** @type {Stretch[]} */
  const stretches = [];
  let [at, other] = [0, 0];
  let [gone, come] = ["", ""];
  const change = () => {
    if (gone !== "" || come !== "") for (const stretch of within(gone, come)) stretches.push(stretch);
    [gone, come] = ["", ""];
  };
  for (const kind of way) {
    if (kind === "keep") change();
    if (kind === "keep") stretches.push(["keep", old[at].length]);
    if (kind === "delete") gone += old[at];
    if (kind === "insert") come += young[other];
    if (kind !== "insert") at += 1;
    if (kind !== "delete") other += 1;
  }
  change();
  return stretches;
}

/**
 * @param {string} gone
 * @param {string} come
 * @returns {Stretch[]}
 */
const replaced = (gone, come) => betweenEnds(gone, come, (one, other) => [["delete", one.length], ["insert", other.length]]);

/**
 * What both begin with and end with is kept, and no character parted.
 * @param {string} old
 * @param {string} young
 * @param {(old: string, young: string) => Stretch[]} between
 * @returns {Stretch[]}
 */
function betweenEnds(old, young, between) {
  const shorter = Math.min(old.length, young.length);
  let start = 0;
  while (start < shorter && old[start] === young[start]) start += 1;
  if (/[\ud800-\udbff]/.test(old[start - 1])) start -= 1;
  let end = 0;
  while (end < shorter - start && old.at(-1 - end) === young.at(-1 - end)) end += 1;
  if (end > 0 && /[\udc00-\udfff]/.test(old.at(-end))) end -= 1;
  const [one, other] = [old.slice(start, old.length - end), young.slice(start, young.length - end)];
  return [["keep", start], ...(one === "" && other === "" ? [] : between(one, other)), ["keep", end]];
}

/**
 * The whole lines that both begin and end with are kept.
 * @param {string} old
 * @param {string} young
 * @param {(old: string, young: string) => Stretch[]} between
 * @returns {Stretch[]}
 */
function betweenLines(old, young, between) {
  const [[, same], ...rest] = betweenEnds(old, young, () => []);
  const start = old.slice(0, same).lastIndexOf("\n") + 1;
  let end = rest.at(-1)[1];
  if (end < old.length - start && (old.at(-1 - end) !== "\n" || young.at(-1 - end) !== "\n")) {
    const first = old.indexOf("\n", old.length - end);
    end = first === -1 ? 0 : old.length - first - 1;
  }
  const [one, other] = [old.slice(start, old.length - end), young.slice(start, young.length - end)];
  /** @type {Stretch[]} */
  const middle = one === other ? [["keep", one.length]] : between(one, other);
  return [["keep", start], ...middle, ["keep", end]];
}

/** @param {string} text @param {RegExp} part */
const partsOf = (text, part) => text.match(part) ?? [];

/**
 * The attributes that make those of one document those of the other.
 * @param {import("./delta.js").Attributes} [from]
 * @param {import("./delta.js").Attributes} [to]
 */
function attributesBetween(from = {}, to = {}) {
  const names = [...new Set([...Object.keys(from), ...Object.keys(to)])].filter((name) => valueOf(from, name) !== valueOf(to, name));
  return names.length === 0 ? undefined : Object.fromEntries(names.map((name) => [name, valueOf(to, name) ?? null]));
}

/** Goes over a document's operations, so many units at a time. */
export class Units {
  #ops;
  #index = 0;
  #offset = 0;

  /** @param {Op[]} ops */
  constructor(ops) {
    this.#ops = ops;
  }

  get isAtEnd() {
    return this.#index === this.#ops.length;
  }

  /** How many units come that have the same attributes. */
  get length() {
    return lengthOf(this.#ops[this.#index]) - this.#offset;
  }

  /** @param {number} length  that have the same attributes @returns {Op} */
  take(length) {
    const op = this.#ops[this.#index];
    const start = this.#offset;
    this.#offset += length;
    if (this.#offset === lengthOf(op)) [this.#index, this.#offset] = [this.#index + 1, 0];
    return typeof op.insert === "string" ? { ...op, insert: op.insert.slice(start, start + length) } : op;
  }
}

/**
 * The delta that makes one document of another. It finds the lines that both have, in what is between them the words, and in those how they
 * begin and end. What both have is kept with what is done to it beside, so only its attributes are changed.
 * @param {{ ops: Op[] }} from
 * @param {{ ops: Op[] }} to
 */
export function difference(from, to) {
  const inLines = (/** @type {string} */ old, /** @type {string} */ young) => stretchesOf(partsOf(old, LINE), partsOf(young, LINE), inWords);
  const inWords = (/** @type {string} */ old, /** @type {string} */ young) =>
    betweenEnds(old, young, (one, other) => stretchesOf(partsOf(one, WORD), partsOf(other, WORD), replaced));
  const delta = new Delta();
  const [old, young] = [new Units(from.ops), new Units(to.ops)];
  for (const [kind, length] of betweenLines(textOf(from), textOf(to), inLines)) {
    for (let left = length; left > 0; ) {
      const taken = Math.min(left, kind === "insert" ? Infinity : old.length, kind === "delete" ? Infinity : young.length);
      const [below, above] = [kind === "insert" ? undefined : old.take(taken), kind === "delete" ? undefined : young.take(taken)];
      if (kind === "insert") delta.push(above);
      else if (kind === "delete") delta.delete(taken);
      else if (isSame(below, above)) delta.retain(taken, attributesBetween(below.attributes, above.attributes));
      else delta.push(above).delete(taken);
      left -= taken;
    }
  }
  return delta.chop();
}

/** @param {Op} one @param {Op} other */
function isSame({ insert: one }, { insert: other }) {
  if (typeof one === "string" || typeof other === "string") return typeof one === typeof other;
  return areAlike(one, other);
}
