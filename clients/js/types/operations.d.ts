/**
 * Whether something is an operation.
 * @param {any} op
 * @returns {op is Op}
 */
export function isOp(op: any): op is import("./delta.js").Op;
/**
 * Takes operations over, in normal form. Throws what a server would refuse them by, whatever the document.
 * @param {any} ops
 */
export function takenOver(ops: any): Delta;
/**
 * Whether a change in normal form begins or ends between the two halves of a character.
 * @param {{ ops: Op[] }} delta
 * @param {{ ops: Op[] }} document
 */
export function cutsPair(delta: {
    ops: Op[];
}, document: {
    ops: Op[];
}): boolean;
export const MAX_LINE: 65536;
export function bytesOf(op: Op | Op[] | string): number;
export function hasHalf(text: any): boolean;
export function reachOf({ ops }: {
    ops: Op[];
}): number;
export function growthOf({ ops }: {
    ops: Op[];
}): number;
export type Op = import("./delta.js").Op;
export type Value = import("./delta.js").Value;
import { Delta } from "./delta.js";
