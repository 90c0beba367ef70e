// Values that a server doesn't keep as they are, as texts: it keeps texts, whole numbers and booleans.

const MARK = "json:";

/**
 * @typedef {import("./delta.js").Op} Op
 * @typedef {import("./delta.js").Value} Value
 *
 * @callback Encode  gives what the server keeps in a value's place
 * @param {any} value
 * @param {string} name  of the embed or attribute
 * @returns {Value}
 *
 * @callback Decode  gives the value back
 * @param {Value} value
 * @param {string} name
 * @returns {any}
 */

/**
 * A value as JSON, in the one spelling that equal values have: no blanks, and the names of each object in the order of their code units.
 * @param {any} value
 * @returns {string | undefined}  undefined where it is none
 */
function spelled(value) {
  if (typeof value === "number" && !Number.isFinite(value)) return undefined;
  if (typeof value !== "object" || value === null) return JSON.stringify(value);
  const isList = Array.isArray(value);
  const names = isList ? [...value.keys()] : Object.keys(value).sort();
  const members = names.map((name) => {
    const member = spelled(value[name]);
    return member && (isList ? member : `${JSON.stringify(name)}:${member}`);
  });
  if (members.includes(undefined)) return undefined;
  return isList ? `[${members}]` : `{${members}}`;
}

/**
 * An object, a list or a number that isn't whole becomes `json:` and its JSON; so does a text that begins like that.
 * @type {Encode}
 */
function encodeAsJson(value) {
  const isFlat = typeof value === "string" ? !value.startsWith(MARK) : typeof value === "boolean" || Number.isSafeInteger(value);
  const text = isFlat ? undefined : spelled(value);
  return text === undefined ? value : MARK + text;
}

/** @type {Decode} */
function decodeFromJson(value) {
  if (typeof value !== "string" || !value.startsWith(MARK)) return value;
  try {
    return JSON.parse(value.slice(MARK.length));
  } catch {
    return value; // somebody else wrote it
  }
}

/** Turns the values in operations. */
export class Values {
  #encode;
  #decode;

  /** @param {Encode} [encode] @param {Decode} [decode]  as JSON if they aren't given */
  constructor(encode = encodeAsJson, decode = decodeFromJson) {
    this.#encode = encode;
    this.#decode = decode;
  }

  /**
   * Operations as the server keeps them.
   * @param {any[]} ops
   * @returns {Op[]}
   */
  encode(ops) {
    return ops.map((op) => turned(op, this.#encode));
  }

  /**
   * Operations as an editor has them.
   * @param {Op[]} ops
   * @returns {any[]}
   */
  decode(ops) {
    return ops.map((op) => turned(op, this.#decode));
  }
}

/**
 * An operation with other values; the same one where none is another.
 * @param {any} op
 * @param {(value: any, name: string) => any} turn
 */
function turned(op, turn) {
  const [insert, attributes] = [membersOf(op?.insert, turn), membersOf(op?.attributes, turn)];
  if (insert === op?.insert && attributes === op?.attributes) return op;
  return attributes === undefined ? { ...op, insert } : { ...op, ...(insert !== undefined && { insert }), attributes };
}

/**
 * @param {any} members  an embed's, or attributes
 * @param {(value: any, name: string) => any} turn
 */
function membersOf(members, turn) {
  if (typeof members !== "object" || members === null || Array.isArray(members)) return members;
  let isOther = false;
  const all = Object.entries(members).map(([name, value]) => {
    const other = value === null || value === undefined ? value : turn(value, name);
    isOther ||= other !== value;
    return [name, other];
  });
  return isOther ? Object.fromEntries(all) : members;
}
