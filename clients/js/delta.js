// Deltas as quill-delta publishes them: text, embeds of one unit, attributes. Lengths count UTF-16 code units.

/**
 * @typedef {string | number | boolean} Value
 * @typedef {Record<string, Value>} Embed  one name and one value
 * @typedef {Record<string, Value | null>} Attributes
 *
 * @typedef {Insert | Retain | Delete} Op
 * @typedef {{ insert: string | Embed, attributes?: Attributes, retain?: undefined, delete?: undefined }} Insert
 * @typedef {{ retain: number, attributes?: Attributes, insert?: undefined, delete?: undefined }} Retain
 * @typedef {{ delete: number, insert?: undefined, retain?: undefined, attributes?: undefined }} Delete
 *
 * @typedef {object} QuillDelta  a delta of quill-delta, whose types leave open what an attribute is
 * @property {{ insert?: string | Record<string, unknown>, retain?: number | Record<string, unknown>, delete?: number, attributes?: Record<string, unknown> }[]} ops
 */

/**
 * How many units an operation inserts, retains or deletes.
 * @param {Op} op
 * @returns {number}
 */
export function lengthOf(op) {
  const { insert } = op; // most operations are inserts
  if (insert !== undefined) return typeof insert === "string" ? insert.length : 1;
  return op.retain ?? op.delete;
}

/** @param {Op} op */
const isText = (op) => typeof op.insert === "string";

/** @param {Op} op */
const kindOf = (op) => (op.insert !== undefined ? "insert" : op.retain !== undefined ? "retain" : "delete");

/**
 * Attributes without those for which `drops` holds; undefined where none are left.
 * @param {Attributes | undefined} attributes
 * @param {(name: string, value: Value | null) => boolean} drops
 */
function without(attributes, drops) {
  const kept = Object.entries(attributes ?? {}).filter(([name, value]) => !drops(name, value));
  return kept.length === 0 ? undefined : Object.fromEntries(kept);
}

/**
 * The value that attributes have under a name. They have none under a name such as "constructor" that only their prototype has.
 * @param {Attributes | undefined} attributes
 * @param {string} name
 * @returns {Value | null | undefined}
 */
export const valueOf = (attributes, name) => (attributes !== undefined && Object.hasOwn(attributes, name) ? attributes[name] : undefined);

/** @param {Attributes} [one] @param {Attributes} [other] */
export function areAlike(one, other) {
  if (one === other) return true;
  let more = 0; // names that `one` has more
  for (const name in one) {
    if (one[name] !== valueOf(other, name)) return false;
    more += 1;
  }
  for (const _ in other) more -= 1;
  return more === 0;
}

/**
 * Whether two deltas in normal form are the same.
 * @param {{ ops: Op[] }} one
 * @param {{ ops: Op[] }} other
 */
export function areSame(one, other) {
  if (one.ops.length !== other.ops.length) return false;
  return one.ops.every((op, at) => {
    const { insert, retain, delete: gone, attributes } = other.ops[at];
    const isSame = op.retain === retain && op.delete === gone && areAlike(op.attributes, attributes);
    if (typeof op.insert !== "object" || typeof insert !== "object") return isSame && op.insert === insert;
    return isSame && areAlike(op.insert, insert);
  });
}

/** @param {Op} op @param {Attributes | undefined} attributes @returns {Op} */
const withAttributes = (op, attributes) => (attributes === undefined ? op : { ...op, attributes });

/**
 * An operation of the same kind, without attributes.
 * @param {Op} op
 * @param {any} value
 * @returns {Op}
 */
function partOf(op, value) {
  if (op.insert !== undefined) return { insert: value };
  return op.retain !== undefined ? { retain: value } : { delete: value };
}

/**
 * Attributes that are set one after the other. A null is kept only where it still has something to remove.
 * @param {Attributes | undefined} first
 * @param {Attributes | undefined} second
 * @param {boolean} keepsNull
 */
function composed(first, second, keepsNull) {
  return without({ ...first, ...second }, (name, value) => value === null && !keepsNull);
}

/**
 * The attributes `second` as they are set after `first`, which wins where it has priority.
 * @param {Attributes | undefined} first
 * @param {Attributes | undefined} second
 * @param {boolean} priority
 */
function transformed(first, second, priority) {
  return without(second, (name) => priority && valueOf(first, name) !== undefined);
}

/**
 * The attributes that take `change` back where `base` was.
 * @param {Attributes} change
 * @param {Attributes} [base]
 */
function inverted(change, base = {}) {
  const back = Object.keys(change).map((name) => [name, valueOf(base, name) ?? null]);
  return without(Object.fromEntries(back), (name, value) => value === change[name]);
}

/**
 * Where the last change of a document was, and those made of it: the next one is near it mostly.
 * @type {WeakMap<Op[], { index: number, start: number }>}
 */
const near = new WeakMap();

/**
 * Has a document, and those that are composed of it, remember where its last change was, so that the next one is found at once. Its list of
 * operations is in normal form, and nobody changes it.
 * @param {Delta} document
 */
export function remember(document) {
  near.set(document.ops, { index: 0, start: 0 });
  return document;
}

/**
 * The operation of a document that has a place, and where it starts; the number of operations where none has.
 * @param {Op[]} ops
 * @param {number} place
 * @param {{ index: number, start: number }} [from]  where to look first
 */
export function find(ops, place, { index, start } = near.get(ops) ?? { index: 0, start: 0 }) {
  while (index > 0 && start > place) {
    index -= 1;
    start -= lengthOf(ops[index]);
  }
  for (; index < ops.length; index += 1) {
    const end = start + lengthOf(ops[index]);
    if (end > place) break;
    start = end;
  }
  return { index, start };
}

/** Goes over operations in parts as long as they are asked for. Past the end stands a retain without end. */
class Parts {
  #ops;
  #index = 0;
  #offset = 0;

  /** @param {Op[]} ops */
  constructor(ops) {
    this.#ops = ops;
  }

  get isAtEnd() {
    return this.#index >= this.#ops.length;
  }

  get kind() {
    return this.isAtEnd ? "retain" : kindOf(this.#ops[this.#index]);
  }

  get length() {
    return this.isAtEnd ? Infinity : lengthOf(this.#ops[this.#index]) - this.#offset;
  }

  /** How many units come that are only retained. */
  get left() {
    if (this.isAtEnd) return Infinity;
    const { retain, attributes } = this.#ops[this.#index];
    return retain !== undefined && attributes === undefined ? retain - this.#offset : 0;
  }

  /**
   * Hands on whole operations that insert or retain, as long as they have so many units together. Returns how many they have.
   * @param {number} most
   * @param {(op: Op) => void} take
   */
  handOn(most, take) {
    let length = 0;
    if (this.#offset > 0) return length;
    for (; this.#index < this.#ops.length; this.#index += 1) {
      const op = this.#ops[this.#index];
      const next = lengthOf(op);
      if (length + next > most || kindOf(op) === "delete") break;
      length += next;
      take(op);
    }
    return length;
  }

  /**
   * Where the document remembers its places, goes from the beginning to the operation that has a place. Returns how many come before it, and how
   * many units they have.
   * @param {number} place
   */
  leap(place) {
    if (!near.has(this.#ops)) return { index: 0, start: 0 };
    const found = find(this.#ops, place);
    this.#index = found.index;
    return found;
  }

  /** What is left, and goes to the end. @returns {Op[]} */
  rest() {
    const index = this.#index;
    this.#index = this.#ops.length;
    return this.#ops.slice(index);
  }

  /** Goes on so many units, at most to the end of the operation that comes next. */
  skip(length = Infinity) {
    if (this.isAtEnd) return;
    if (length >= this.length) {
      this.#index += 1;
      this.#offset = 0;
    } else {
      this.#offset += length;
    }
  }

  /** @returns {Op} */
  next(length = Infinity) {
    if (this.isAtEnd) return { retain: length };
    const op = this.#ops[this.#index];
    const start = this.#offset;
    const taken = Math.min(length, this.length);
    this.skip(taken);
    if (kindOf(op) === "delete") return { delete: taken };
    if (kindOf(op) === "retain") return withAttributes({ retain: taken }, op.attributes);
    const { insert } = op;
    return withAttributes({ insert: typeof insert === "string" ? insert.slice(start, start + taken) : insert }, op.attributes);
  }
}

/** What one change does to a text, or a document, as the inserts that make it. */
export class Delta {
  /** @param {Op[] | { ops: Op[] }} [ops] */
  constructor(ops = []) {
    /** @type {Op[]} */
    this.ops = Array.isArray(ops) ? ops : ops.ops;
  }

  /**
   * Adds an operation behind the others, and keeps the normal form: neighbours merge, an insert stands before a delete.
   * @param {Op} op
   */
  push(op) {
    if (lengthOf(op) <= 0) return this;
    const added = withAttributes(partOf(op, op[kindOf(op)]), without(op.attributes, () => false));
    const ops = this.ops;
    const at = added.insert !== undefined && ops.at(-1)?.delete !== undefined ? ops.length - 1 : ops.length;
    /** @type {any} */
    const before = ops[at - 1];
    if (before !== undefined && kindOf(before) === kindOf(added) && areAlike(before.attributes, added.attributes)) {
      const kind = kindOf(added);
      if (kind !== "insert" || (isText(before) && isText(added))) {
        ops[at - 1] = withAttributes(partOf(added, before[kind] + added[kind]), before.attributes);
        return this;
      }
    }
    ops.splice(at, 0, added);
    return this;
  }

  /**
   * Adds an operation as it is, where it needn't merge with the last one.
   * @param {Op} op  in normal form
   */
  #hand(op) {
    const last = this.ops.at(-1);
    const isApart = last === undefined || (kindOf(last) !== "delete" && !areAlike(last.attributes, op.attributes));
    if (isApart) this.ops.push(op);
    else this.push(op);
  }

  /**
   * @param {string | Record<string, Value>} insert
   * @param {Attributes} [attributes]
   */
  insert(insert, attributes) {
    return this.push({ insert, attributes });
  }

  /**
   * @param {number} retain
   * @param {Attributes} [attributes]
   */
  retain(retain, attributes) {
    return this.push({ retain, attributes });
  }

  /** @param {number} length */
  delete(length) {
    return this.push({ delete: length });
  }

  /** Drops a retain without attributes at the end, which does nothing. */
  chop() {
    const last = this.ops.at(-1);
    if (last?.retain !== undefined && last.attributes === undefined) this.ops.pop();
    return this;
  }

  length() {
    let length = 0;
    for (const op of this.ops) length += lengthOf(op);
    return length;
  }

  /** The operations from one unit on, and up to another. */
  slice(start = 0, end = Infinity) {
    const slice = new Delta();
    const parts = new Parts(this.ops);
    for (let at = 0; at < end && !parts.isAtEnd; ) {
      const length = Math.min(parts.length, (at < start ? start : end) - at);
      if (at >= start) slice.push(parts.next(length));
      else parts.skip(length);
      at += length;
    }
    return slice;
  }

  /**
   * The one delta for this one, and then the other.
   * @param {Delta} other
   */
  compose(other) {
    const [first, second] = [new Parts(this.ops), new Parts(other.ops)];
    const remembers = near.has(this.ops);
    const { index, start } = first.leap(second.left);
    second.skip(start);
    const delta = new Delta(this.ops.slice(0, index));
    const hand = (/** @type {Op} */ op) => delta.#hand(op);
    while (!first.isAtEnd || !second.isAtEnd) {
      if (remembers && second.isAtEnd) {
        hand(first.next());
        delta.ops = delta.ops.concat(first.rest());
        break;
      }
      const { left } = second;
      const untouched = left > 0 ? first.handOn(left, hand) : 0;
      if (untouched > 0) {
        second.skip(untouched);
      } else if (second.kind === "insert") {
        delta.push(second.next());
      } else if (first.kind === "delete") {
        delta.push(first.next());
      } else {
        const length = Math.min(first.length, second.length);
        const [below, above] = [first.next(length), second.next(length)];
        if (above.delete !== undefined) {
          if (below.retain !== undefined) delta.push(above);
        } else {
          const isRetain = below.retain !== undefined;
          const attributes = composed(below.attributes, above.attributes, isRetain);
          delta.push(isRetain ? { retain: length, attributes } : { insert: below.insert, attributes });
        }
      }
    }
    delta.chop();
    const before = Math.max(0, index - 1); // which may be longer now
    if (remembers) near.set(delta.ops, { index: before, start: index === 0 ? 0 : start - lengthOf(this.ops[before]) });
    return delta;
  }

  /**
   * The other delta as it is after this one, where both were made on one document. With priority, this one's inserts stand
   * first, and the attributes that it sets stay. For a number, where that place is.
   * @template {Delta | number} T
   * @param {T} other
   * @param {boolean} [priority]
   * @returns {T}
   */
  transform(other, priority = false) {
    const moved = typeof other === "number" ? this.transformPosition(other, priority) : this.#transformDelta(other, priority);
    return /** @type {T} */ (moved);
  }

  /** @param {Delta} other @param {boolean} priority */
  #transformDelta(other, priority) {
    const [first, second] = [new Parts(this.ops), new Parts(other.ops)];
    const delta = new Delta();
    while (!first.isAtEnd || !second.isAtEnd) {
      if (first.kind === "insert" && (priority || second.kind !== "insert")) {
        delta.retain(lengthOf(first.next()));
      } else if (second.kind === "insert") {
        delta.push(second.next());
      } else {
        const length = Math.min(first.length, second.length);
        const [done, late] = [first.next(length), second.next(length)];
        if (done.delete !== undefined) continue;
        if (late.delete !== undefined) delta.push(late);
        else delta.retain(length, transformed(done.attributes, late.attributes, priority));
      }
    }
    return delta.chop();
  }

  /**
   * Where a place of the document is after this delta. With priority, an insert at the place itself stands behind it.
   * @param {number} index
   * @param {boolean} [priority]
   */
  transformPosition(index, priority = false) {
    let offset = 0;
    for (const op of this.ops) {
      if (offset > index) break;
      const length = lengthOf(op);
      if (op.delete !== undefined) {
        index -= Math.min(length, index - offset);
        continue;
      }
      if (op.insert !== undefined && (offset < index || !priority)) index += length;
      offset += length;
    }
    return index;
  }

  /**
   * The delta that takes this one back, on the document that it was made on.
   * @param {Delta} base
   */
  invert(base) {
    const delta = new Delta();
    const parts = new Parts(base.ops);
    for (const op of this.ops) {
      const length = lengthOf(op);
      if (op.insert !== undefined) {
        delta.delete(length);
        continue;
      }
      const isPlain = op.delete === undefined && !op.attributes;
      const { start } = isPlain && delta.ops.length === 0 ? parts.leap(length) : { start: 0 };
      if (isPlain) delta.retain(length);
      for (let left = length - start; left > 0 && !parts.isAtEnd; ) {
        const taken = Math.min(left, parts.length);
        if (isPlain) parts.skip(taken);
        else if (op.delete !== undefined) delta.push(parts.next(taken));
        else delta.retain(taken, inverted(op.attributes, parts.next(taken).attributes));
        left -= taken;
      }
    }
    return delta.chop();
  }
}
