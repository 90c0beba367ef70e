/**
 * The delta that makes one document of another. It finds the lines that both have, in what is between them the words, and in those how they
 * begin and end. What both have is kept with what is done to it beside, so only its attributes are changed.
 * @param {{ ops: Op[] }} from
 * @param {{ ops: Op[] }} to
 */
export function difference(from: {
    ops: Op[];
}, to: {
    ops: Op[];
}): Delta;
/** Goes over a document's operations, so many units at a time. */
export class Units {
    /** @param {Op[]} ops */
    constructor(ops: Op[]);
    get isAtEnd(): boolean;
    /** How many units come that have the same attributes. */
    get length(): number;
    /** @param {number} length  that have the same attributes @returns {Op} */
    take(length: number): Op;
    #private;
}
export type Op = import("./delta.js").Op;
export type Kind = "keep" | "insert" | "delete";
/**
 * so many units that both have, or one of them
 */
export type Stretch = [Kind, number];
import { Delta } from "./delta.js";
