/**
 * @typedef {string | number | boolean} Value
 * @typedef {Record<string, Value>} Embed  one name and one value
 * @typedef {Record<string, Value | null>} Attributes
 *
 * @typedef {Insert | Retain | Delete} Op
 * @typedef {{ insert: string | Embed, attributes?: Attributes, retain?: undefined, delete?: undefined }} Insert
 * @typedef {{ retain: number, attributes?: Attributes, insert?: undefined, delete?: undefined }} Retain
 * @typedef {{ delete: number, insert?: undefined, retain?: undefined, attributes?: undefined }} Delete
 *
 * @typedef {object} QuillDelta  a delta of quill-delta, whose types leave open what an attribute is
 * @property {{ insert?: string | Record<string, unknown>, retain?: number | Record<string, unknown>, delete?: number, attributes?: Record<string, unknown> }[]} ops
 */
/**
 * How many units an operation inserts, retains or deletes.
 * @param {Op} op
 * @returns {number}
 */
export function lengthOf(op: Op): number;
/** @param {Attributes} [one] @param {Attributes} [other] */
export function areAlike(one?: Record<string, Value | null> | undefined, other?: Record<string, Value | null> | undefined): boolean;
/**
 * Whether two deltas in normal form are the same.
 * @param {{ ops: Op[] }} one
 * @param {{ ops: Op[] }} other
 */
export function areSame(one: {
    ops: Op[];
}, other: {
    ops: Op[];
}): boolean;
/**
 * Has a document, and those that are composed of it, remember where its last change was, so that the next one is found at once. Its list of
 * operations is in normal form, and nobody changes it.
 * @param {Delta} document
 */
export function remember(document: Delta): Delta;
/**
 * The operation of a document that has a place, and where it starts; the number of operations where none has.
 * @param {Op[]} ops
 * @param {number} place
 * @param {{ index: number, start: number }} [from]  where to look first
 */
export function find(ops: Op[], place: number, { index, start }?: {
    index: number;
    start: number;
} | undefined): {
    index: number;
    start: number;
};
export function valueOf(attributes: Attributes | undefined, name: string): Value | null | undefined;
/** What one change does to a text, or a document, as the inserts that make it. */
export class Delta {
    /** @param {Op[] | { ops: Op[] }} [ops] */
    constructor(ops?: Op[] | {
        ops: Op[];
    } | undefined);
    /** @type {Op[]} */
    ops: Op[];
    /**
     * Adds an operation behind the others, and keeps the normal form: neighbours merge, an insert stands before a delete.
     * @param {Op} op
     */
    push(op: Op): Delta;
    /**
     * @param {string | Record<string, Value>} insert
     * @param {Attributes} [attributes]
     */
    insert(insert: string | Record<string, Value>, attributes?: Record<string, Value | null> | undefined): Delta;
    /**
     * @param {number} retain
     * @param {Attributes} [attributes]
     */
    retain(retain: number, attributes?: Record<string, Value | null> | undefined): Delta;
    /** @param {number} length */
    delete(length: number): Delta;
    /** Drops a retain without attributes at the end, which does nothing. */
    chop(): Delta;
    length(): number;
    /** The operations from one unit on, and up to another. */
    slice(start?: number, end?: number): Delta;
    /**
     * The one delta for this one, and then the other.
     * @param {Delta} other
     */
    compose(other: Delta): Delta;
    /**
     * The other delta as it is after this one, where both were made on one document. With priority, this one's inserts stand
     * first, and the attributes that it sets stay. For a number, where that place is.
     * @template {Delta | number} T
     * @param {T} other
     * @param {boolean} [priority]
     * @returns {T}
     */
    transform<T extends number | Delta>(other: T, priority?: boolean | undefined): T;
    /**
     * Where a place of the document is after this delta. With priority, an insert at the place itself stands behind it.
     * @param {number} index
     * @param {boolean} [priority]
     */
    transformPosition(index: number, priority?: boolean | undefined): number;
    /**
     * The delta that takes this one back, on the document that it was made on.
     * @param {Delta} base
     */
    invert(base: Delta): Delta;
    #private;
}
export type Value = string | number | boolean;
/**
 * one name and one value
 */
export type Embed = Record<string, Value>;
export type Attributes = Record<string, Value | null>;
export type Op = Insert | Retain | Delete;
export type Insert = {
    insert: string | Embed;
    attributes?: Attributes;
    retain?: undefined;
    delete?: undefined;
};
export type Retain = {
    retain: number;
    attributes?: Attributes;
    insert?: undefined;
    delete?: undefined;
};
export type Delete = {
    delete: number;
    insert?: undefined;
    retain?: undefined;
    attributes?: undefined;
};
/**
 * a delta of quill-delta, whose types leave open what an attribute is
 */
export type QuillDelta = {
    ops: {
        insert?: string | Record<string, unknown>;
        retain?: number | Record<string, unknown>;
        delete?: number;
        attributes?: Record<string, unknown>;
    }[];
};
