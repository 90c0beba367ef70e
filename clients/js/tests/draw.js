// Drawn documents and changes, the same for the same seed.

import { Delta } from "../delta.js";

const PIECES = ["a", "b", "no", " ", "\n", "é", "\u{1f600}", "\u{1d11e}x"];
const ATTRIBUTES = { bold: [true], italic: [true], size: [1, 2], link: ["u", "v"] };

export class Draw {
  #state;

  constructor(seed) {
    this.#state = seed;
  }

  /** A whole number from 0 on below a bound (mulberry32). */
  below(bound) {
    this.#state = (this.#state + 0x6d2b79f5) | 0;
    let mixed = Math.imul(this.#state ^ (this.#state >>> 15), 1 | this.#state);
    mixed = (mixed + Math.imul(mixed ^ (mixed >>> 7), 61 | mixed)) ^ mixed;
    return ((mixed ^ (mixed >>> 14)) >>> 0) % bound;
  }

  of(list) {
    return list[this.below(list.length)];
  }

  attributes(mayRemove) {
    if (this.below(2) === 0) return undefined;
    const name = this.of(Object.keys(ATTRIBUTES));
    return { [name]: mayRemove && this.below(3) === 0 ? null : this.of(ATTRIBUTES[name]) };
  }

  text() {
    return Array.from({ length: 1 + this.below(3) }, () => this.of(PIECES)).join("");
  }

  insert() {
    const insert = this.below(6) === 0 ? { image: this.of(["p", "q"]) } : this.text();
    return { insert, attributes: this.attributes(false) };
  }

  document() {
    return Array.from({ length: this.below(5) }, () => this.insert()).reduce((delta, op) => delta.push(op), new Delta());
  }

  /** A change of a document, which parts no pair. */
  change(base) {
    const delta = new Delta();
    let [at, end] = [0, base.length()];
    while (at < end) {
      const length = this.#whole(base, at, 1 + this.below(4));
      const kind = this.below(4);
      if (kind === 0) delta.delete(length);
      else delta.retain(length, kind === 1 ? this.attributes(true) : undefined);
      at += length;
      if (this.below(3) === 0) delta.push(this.insert());
    }
    if (this.below(3) === 0) delta.push(this.insert());
    return delta.chop();
  }

  /** Some typing in a text: a few characters put in, or some taken away. */
  typing(base) {
    const at = this.#whole(base, 0, this.below(base.length() + 1));
    if (this.below(3) > 0) return new Delta().retain(at).push(this.insert());
    const taken = this.#whole(base, at, 1 + this.below(3));
    return this.below(2) === 0 ? new Delta().retain(at).delete(taken).chop() : new Delta().retain(at).retain(taken, this.attributes(true)).chop();
  }

  // A length from a place on that stays within the document, and ends in no pair.
  #whole(base, at, length) {
    const end = Math.min(at + length, base.length());
    const next = base.slice(end, end + 1).ops[0]?.insert;
    const isInPair = typeof next === "string" && /[\udc00-\udfff]/.test(next);
    return (isInPair ? end + 1 : end) - at;
  }
}
