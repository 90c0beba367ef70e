/**
 * @typedef {import("./session.js").Reply} Reply
 * @typedef {import("./leases.js").Lease} Lease
 *
 * @typedef {object} Numbered  what a command is known by
 * @property {number} number
 * @property {Lease} lease  under which the number counts
 *
 * @typedef {object} Item  something that was asked
 * @property {import("./session.js").Message} message  without its number
 * @property {boolean} isCommand
 * @property {import("./session.js").Settle} settle  is called once with what it came to
 * @property {boolean} [isSent]  in the session that there is now
 * @property {number} [sendings]
 * @property {number} [number]
 * @property {boolean} [counts]  its number was the next one
 * @property {boolean} [isBehind]  since it was sent, one before it wasn't taken: then it is answered Gap, NoDocument or Exists, and is
 *   sent again
 * @property {RichdError} [trouble]  what it was refused by, and is sent again for all the same
 * @property {(error: RichdError) => void} [onRetry]  is told of each
 * @property {(numbered: Numbered) => Promise<void>} [hold]  is waited for before it is sent under a number
 * @property {Numbered} [holding]  what it is held for
 * @property {Numbered} [held]  what it was held for
 * @property {Numbered} [kept]  what it was sent as before this program began, if it was
 * @property {boolean} [isInDoubt]  its number is of another lease, or neither the next one nor the last one that is used, so it may be another's
 * @property {boolean} [needsNoLease]  in the session that there is now: it creates a document that is nowhere
 */
/**
 * At most 16 commands of a document are on their way. What is asked behind a command that waits does so too, so that a read sees what
 * was commanded before it. What isn't answered when the session ends is sent again in the next one, a command with its number, in the
 * order in which it was asked.
 *
 * A gateway lends a name for the document, and the numbers count under that lease alone. So it is asked for in each session, before the first
 * command. Where it is another than before, what was sent and isn't answered ends with "InDoubt", and what wasn't sent gets new numbers.
 */
export class Line {
    /**
     * @param {string} doc
     * @param {boolean} [isNew]  the source is used for the first time, so its first number is 1
     */
    constructor(doc: string, isNew?: boolean | undefined);
    /** The source turns out to be new, before there is a session. */
    beginNumbers(): void;
    /** Whether nothing of it is asked, or waits. */
    get isIdle(): boolean;
    /** @param {Item} item */
    add(item: Item): void;
    /**
     * Takes back what wasn't sent yet. What was sent stays: it may have been taken, and then its number is used.
     * @param {Item} item
     */
    remove(item: Item): void;
    /**
     * Goes on in a session, or waits for the next one.
     * @param {import("./session.js").Session | null} session
     */
    set session(arg: import("./session.js").Session | null);
    /**
     * Settles all with one error, except for what was sent.
     * @param {RichdError} error
     */
    refuse(error: RichdError): void;
    #private;
}
export type Reply = import("./session.js").Reply;
export type Lease = import("./leases.js").Lease;
/**
 * what a command is known by
 */
export type Numbered = {
    number: number;
    /**
     * under which the number counts
     */
    lease: Lease;
};
/**
 * something that was asked
 */
export type Item = {
    /**
     * without its number
     */
    message: import("./session.js").Message;
    isCommand: boolean;
    /**
     * is called once with what it came to
     */
    settle: import("./session.js").Settle;
    /**
     * in the session that there is now
     */
    isSent?: boolean | undefined;
    sendings?: number | undefined;
    number?: number | undefined;
    /**
     * its number was the next one
     */
    counts?: boolean | undefined;
    /**
     * since it was sent, one before it wasn't taken: then it is answered Gap, NoDocument or Exists, and is
     * sent again
     */
    isBehind?: boolean | undefined;
    /**
     * what it was refused by, and is sent again for all the same
     */
    trouble?: RichdError | undefined;
    /**
     * is told of each
     */
    onRetry?: ((error: RichdError) => void) | undefined;
    /**
     * is waited for before it is sent under a number
     */
    hold?: ((numbered: Numbered) => Promise<void>) | undefined;
    /**
     * what it is held for
     */
    holding?: Numbered | undefined;
    /**
     * what it was held for
     */
    held?: Numbered | undefined;
    /**
     * what it was sent as before this program began, if it was
     */
    kept?: Numbered | undefined;
    /**
     * its number is of another lease, or neither the next one nor the last one that is used, so it may be another's
     */
    isInDoubt?: boolean | undefined;
    /**
     * in the session that there is now: it creates a document that is nowhere
     */
    needsNoLease?: boolean | undefined;
};
import { RichdError } from "./errors.js";
