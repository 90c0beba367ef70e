/**
 * What is to be inserted behind what a document has, so that it has all of its contents; undefined where it has something else.
 * @param {import("./delta.js").Op[]} made
 * @param {import("./delta.js").Op[]} ops  its contents
 */
export function restOf(made: import("./delta.js").Op[], ops: import("./delta.js").Op[]): Delta | undefined;
/**
 * Parts an edit in two that do the same one after the other. The first takes about so many bytes as JSON, and does something at least:
 * one operation, or one character. The second is made on what the first made, and has no operations where the first is the whole.
 * @param {{ ops: import("./delta.js").Op[] }} delta
 * @param {number} room
 * @returns {[Delta, Delta]}
 */
export function parted({ ops }: {
    ops: import("./delta.js").Op[];
}, room: number): [Delta, Delta];
export const ROOM: number;
export const LEAST_ROOM: 64;
export function isTooLong({ code }: {
    code: any;
}): boolean;
export function isLong(ops: import("./delta.js").Op[]): boolean;
import { Delta } from "./delta.js";
