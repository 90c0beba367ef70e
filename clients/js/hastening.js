// Quill 1 composes each letter with the whole document, and copies each of its operations.

const LEAST = 64; // operations of a document for which it is worth it
const hastened = new WeakSet();

/** @param {any} op @returns {number} */
const lengthOf = ({ insert, retain, delete: gone }) => (insert === undefined ? (retain ?? gone) : typeof insert === "string" ? insert.length : 1);

/**
 * Has the page's class for deltas compose only what a change touches, and the operations beside it, where it is a document that is changed. The
 * others are handed on as they are: nothing of Quill's changes an operation.
 * @param {any} Delta
 */
export function hasten(Delta) {
  if (typeof Delta?.prototype?.compose !== "function" || hastened.has(Delta)) return;
  hastened.add(Delta);
  const { compose } = Delta.prototype;
  Delta.prototype.compose = function (/** @type {any} */ other) {
    const touched = this.ops.length < LEAST ? undefined : touchedOf(this.ops, other.ops);
    if (touched === undefined) return compose.call(this, other);
    const { first, end, start } = touched;
    const [{ retain }, ...changes] = other.ops;
    const between = this.ops.slice(first, end);
    const { ops } = compose.call(new Delta(between), new Delta([...(retain > start ? [{ retain: retain - start }] : []), ...changes]));
    return new Delta([...this.ops.slice(0, first), ...ops, ...this.ops.slice(end)]);
  };
}

/**
 * The operations that a change touches with one on either side, and where the first of them starts; undefined where the change doesn't begin
 * with a retain, or reaches past the end, or the operations aren't a document's.
 * @param {any[]} ops
 * @param {any[]} change
 */
function touchedOf(ops, change) {
  const [retained] = change;
  if (typeof retained?.retain !== "number" || retained.attributes) return undefined;
  const reach = change.reduce((sum, op) => sum + (op.insert === undefined ? lengthOf(op) : 0), 0);
  let [index, start, before] = [0, 0, 0]; // and how long the operation before is
  for (; index < ops.length && start + lengthOf(ops[index]) <= retained.retain; index += 1) {
    if (ops[index].insert === undefined) return undefined;
    before = lengthOf(ops[index]);
    start += before;
  }
  let [end, reached] = [index, start];
  for (; end < ops.length && reached <= reach; end += 1) reached += lengthOf(ops[end]);
  if (reached < reach || ops.slice(index, end + 1).some(({ insert }) => insert === undefined)) return undefined;
  return { first: Math.max(0, index - 1), end: Math.min(ops.length, end + 1), start: start - before };
}
