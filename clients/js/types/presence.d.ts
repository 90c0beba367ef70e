/**
 * @typedef {import("./delta.js").Delta} Delta
 * @typedef {import("./delta.js").Op} Op
 * @typedef {import("./session.js").Reply} Reply
 *
 * @typedef {object} Range  a caret, of length 0, or a selection of what is shown, in UTF-16 code units, as Quill has it
 * @property {number} index
 * @property {number} length
 *
 * @typedef {object} Other  somebody else who is in the document
 * @property {string} id  of his connection: another one after it was begun again
 * @property {string} user  the name by which the gateway knows him
 * @property {Range} range
 *
 * @typedef {[number, number]} Place  from one place of a revision to another
 *
 * @typedef {object} Surroundings  what is asked of the document and of its client
 * @property {() => number} revision
 * @property {() => { ops: Op[] }[]} pending  what is shown past that revision: what was sent, and what was typed
 * @property {(rev: number, at: Place | null) => Promise<boolean>} tell  whether there was a gateway to tell it to
 * @property {(rev: number) => Promise<{ rev: number, deltas: Op[][] }>} since
 * @property {(ops: Op[]) => Delta} deltaOf
 */
/**
 * Where a place was before a change: what was inserted lies at the place where it was put in.
 * @param {{ ops: Op[] }} change
 * @param {number} index
 */
export function placeBefore({ ops }: {
    ops: Op[];
}, index: number): number;
/**
 * Where this document's user is, and where others are. Nobody is told of before the first `set`, and nothing is sent to a server that is no
 * gateway. Sends "change" where somebody comes, goes or moves.
 * @extends {Emitter<{ change: PresenceEvent }>}
 */
export class Presence extends Emitter<{
    change: PresenceEvent;
}> {
    /** @param {Places} places */
    constructor(places: Places);
    /** Those who are in the document too. @returns {Other[]} */
    get others(): Other[];
    /**
     * Says where its own user is in what is shown, or that he has left, with null: then the others aren't told of any more either. What is typed
     * and what others do moves him from then on.
     * @param {Range | null} range
     */
    set(range: Range | null): void;
    #private;
}
/** The places of all, as the document changes. */
export class Places {
    /** @param {Surroundings} document */
    constructor(document: Surroundings);
    onChange: () => void;
    /** @returns {Other[]} */
    get others(): Other[];
    /** @param {Range | null} range */
    set(range: Range | null): void;
    /** A session has begun. */
    begin(): void;
    /** The session has ended, so nobody is known any more. */
    end(): void;
    /**
     * What is shown is another.
     * @param {Delta} change
     * @param {boolean} isOwn  its user did it
     */
    move(change: Delta, isOwn: boolean): void;
    /**
     * A revision has come.
     * @param {{ ops: Op[] }} change  what made it
     * @param {number} revision
     * @param {boolean} isOwn
     */
    step(change: {
        ops: Op[];
    }, revision: number, isOwn: boolean): void;
    /**
     * The document was fetched anew.
     * @param {{ ops: Op[] }} change  what makes it of the revision before
     * @param {number} from
     * @param {number} to
     */
    leap(change: {
        ops: Op[];
    }, from: number, to: number): void;
    /**
     * Takes a line of somebody's presence.
     * @param {Reply} line
     */
    take({ presence, user, at, rev }: Reply): void;
    /** Tells what is another than before. */
    settle(): void;
    #private;
}
export type Delta = import("./delta.js").Delta;
export type Op = import("./delta.js").Op;
export type Reply = import("./session.js").Reply;
/**
 * a caret, of length 0, or a selection of what is shown, in UTF-16 code units, as Quill has it
 */
export type Range = {
    index: number;
    length: number;
};
/**
 * somebody else who is in the document
 */
export type Other = {
    /**
     * of his connection: another one after it was begun again
     */
    id: string;
    /**
     * the name by which the gateway knows him
     */
    user: string;
    range: Range;
};
/**
 * from one place of a revision to another
 */
export type Place = [number, number];
/**
 * what is asked of the document and of its client
 */
export type Surroundings = {
    revision: () => number;
    /**
     * what is shown past that revision: what was sent, and what was typed
     */
    pending: () => {
        ops: Op[];
    }[];
    /**
     * whether there was a gateway to tell it to
     */
    tell: (rev: number, at: Place | null) => Promise<boolean>;
    since: (rev: number) => Promise<{
        rev: number;
        deltas: Op[][];
    }>;
    deltaOf: (ops: Op[]) => Delta;
};
import { PresenceEvent } from "./events.js";
import { Emitter } from "./emitter.js";
