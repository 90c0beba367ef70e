/**
 * @typedef {object} Follower
 * @property {number} rev  the last revision that it was told
 * @property {(ops: import("./delta.js").Op[], rev: number) => void} onNews
 * @property {(error: RichdError) => void} onEnd  nothing more comes: as TooOld, where the next revision is no longer held
 */
/** A session has one subscription of a document. It begins at the lowest revision that a follower has. */
export class News {
    /** @param {(message: import("./session.js").Message, settle: import("./session.js").Settle) => void} ask  asks something of the document */
    constructor(ask: (message: import("./session.js").Message, settle: import("./session.js").Settle) => void);
    /** Whether nobody follows. */
    get isIdle(): boolean;
    /** @param {Follower} follower */
    join(follower: Follower): void;
    /** @param {Follower} follower */
    leave(follower: Follower): void;
    /** Subscribes from the lowest revision on. What somebody has already been told is dropped when it comes again. */
    renew(): void;
    /**
     * Takes a line of news.
     * @param {import("./session.js").Reply} line
     */
    take(line: import("./session.js").Reply): void;
    /**
     * Ends it for all.
     * @param {RichdError} error
     */
    end(error: RichdError): void;
    #private;
}
export type Follower = {
    /**
     * the last revision that it was told
     */
    rev: number;
    onNews: (ops: import("./delta.js").Op[], rev: number) => void;
    /**
     * nothing more comes: as TooOld, where the next revision is no longer held
     */
    onEnd: (error: RichdError) => void;
};
import { RichdError } from "./errors.js";
