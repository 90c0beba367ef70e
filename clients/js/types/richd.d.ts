/**
 * @typedef {import("./delta.js").Op} Op
 * @typedef {import("./limits.js").Limits} Limits
 * @typedef {import("./line.js").Numbered} Numbered
 * @typedef {import("./keeping.js").Creation} Creation
 * @typedef {import("./document.js").DocumentState} DocumentState
 * @typedef {import("./document.js").DocumentEvents} DocumentEvents
 * @typedef {import("./document.js").OpenOptions} OpenOptions
 * @typedef {import("./presence.js").Other} Other
 * @typedef {import("./presence.js").Range} Range
 *
 * @typedef {"connected" | "offline" | "full" | "closed"} ClientState  "full" is "offline" where the server has no place
 *
 * @typedef {object} Options
 * @property {string} [source]  the name of whoever makes the changes, which one program has at a time. Without it a page takes one of its
 *     browser's, and a program a new one
 * @property {boolean} [isNew]  the source was never used before, so its numbers needn't be asked for
 * @property {number} [timeout]  how many milliseconds a call may take that names no other: 30,000 if it isn't given. Where it is given,
 *     `connect` ends by it too
 * @property {number} [patience]  after so many milliseconds without a byte the connection is cut, and begun again; after half of them the
 *     server is asked whether it is there. 30,000 if it isn't given, `Infinity` for neither
 * @property {AbortSignal} [signal]  closes the client
 *
 * @typedef {object} Watcher  a document that is open, which is told how its client stands
 * @property {() => void} onState
 * @property {() => void} onConnected
 * @property {() => void} onCut
 */
/**
 * Connects to a server: `{ host, port }`, `{ command, args }` for a program of one's own, or `{ url }` for a WebSocket. It waits until a
 * server is there, however long that takes; who shows a state meanwhile makes a `Client`, and waits for its `connected`.
 * @param {import("./links.js").Address & Options} options
 */
export function connect(options: import("./links.js").Address & Options): Promise<Client<{}>>;
/**
 * Connects by itself, and again after each cut. It sends "state" where its state is another than before, "connected" as a session begins, and
 * "cut" as one ends by itself.
 * @template {{ [name: string]: Event }} [More={}]
 * @extends {Emitter<{ state: StateEvent<ClientState>, connected: Event, cut: Event } & More>}
 */
export class Client<More extends {
    [name: string]: Event;
} = {}> extends Emitter<{
    state: StateEvent<ClientState>;
    connected: Event;
    cut: Event;
} & More> {
    /** @param {import("./links.js").Address & Options} options */
    constructor(options: import("./links.js").Address & Options);
    /** The source's name: where a new one is made up, once the first session begins. */
    get source(): string | undefined;
    /** @returns {ClientState} */
    get state(): ClientState;
    /** Waits until it is connected. Where it never was, and the time ends, the client is closed. */
    connected(): Promise<void>;
    /**
     * Creates a document, or one that was deleted again. A source that created it before, and did nothing more, gets the same answer. Contents
     * that are longer than a message are inserted by edits behind the first part; where this source didn't come to the end of that before, and
     * nobody did anything else, it goes on with it.
     * @param {string} doc
     * @param {Op[]} ops
     * @param {Limits} [limits]
     */
    create(doc: string, ops: Op[], limits?: import("./limits.js").Limits | undefined): Promise<{
        rev: number;
    } | {
        rev: number;
    }>;
    /**
     * Creates a document with as much of its contents as a message may have. Gives what is left, as an edit of the first part.
     * @param {string} doc
     * @param {Op[]} ops
     * @param {Limits & { keep?: (creation: Creation) => Promise<void> }} [limits]  `keep` is waited for before a part of the contents leaves
     * @returns {Promise<{ rev: number, first: { ops: Op[] }, rest: Delta }>}
     */
    begin(doc: string, ops: Op[], limits?: (import("./limits.js").Limits & {
        keep?: ((creation: Creation) => Promise<void>) | undefined;
    }) | undefined): Promise<{
        rev: number;
        first: {
            ops: Op[];
        };
        rest: Delta;
    }>;
    /**
     * Creates a document as an earlier page began to, under the same number.
     * @param {string} doc
     * @param {Creation} creation
     * @returns {Promise<{ rev: number, ops: Op[], rest: Delta }>}
     */
    beginAgain(doc: string, { first, rest, number, lease }: Creation): Promise<{
        rev: number;
        ops: Op[];
        rest: Delta;
    }>;
    /**
     * Changes a document by operations that were made on its revision `base`; by several edits where they are longer than a message.
     * @param {string} doc
     * @param {Op[]} ops
     * @param {number} base
     * @param {Limits} [limits]
     */
    edit(doc: string, ops: Op[], base: number, limits?: import("./limits.js").Limits | undefined): any;
    /**
     * Takes this source's last change of a document back.
     * @param {string} doc
     * @param {Limits} [limits]
     */
    undo(doc: string, limits?: import("./limits.js").Limits | undefined): Promise<{
        rev: number;
    }>;
    /**
     * Deletes a document. Its name stays, and `create` makes it again.
     * @param {string} doc
     * @param {Limits} [limits]
     */
    delete(doc: string, limits?: import("./limits.js").Limits | undefined): Promise<{
        rev: number;
    }>;
    /**
     * A document at a revision, or at the newest.
     * @param {string} doc
     * @param {number} [at]
     * @param {Limits} [limits]
     * @returns {Promise<{ rev: number, ops: Op[] }>}
     */
    fetch(doc: string, at?: number | undefined, limits?: import("./limits.js").Limits | undefined): Promise<{
        rev: number;
        ops: Op[];
    }>;
    /**
     * What made each revision above one, up to the newest.
     * @param {string} doc
     * @param {number} at
     * @param {Limits} [limits]
     * @returns {Promise<{ rev: number, deltas: Op[][] }>}
     */
    since(doc: string, at: number, limits?: import("./limits.js").Limits | undefined): Promise<{
        rev: number;
        deltas: Op[][];
    }>;
    /**
     * Each revision above one, as it comes, with what made it. It ends when the client is closed.
     * @param {string} doc
     * @param {number} fromRev
     * @param {{ signal?: AbortSignal }} [options]  the signal ends it with its reason
     * @returns {AsyncGenerator<{ rev: number, ops: Op[] }, void, void>}
     */
    follow(doc: string, fromRev: number, options?: {
        signal?: AbortSignal | undefined;
    } | undefined): AsyncGenerator<{
        rev: number;
        ops: Op[];
    }, void, void>;
    /**
     * Calls a follower for each revision above its own, as `follow` gives it. Returns what ends that.
     * @param {string} doc
     * @param {import("./news.js").Follower} follower
     */
    onNews(doc: string, follower: import("./news.js").Follower): () => void;
    /**
     * Calls a function with each line that a gateway tells of others who are present in a document, while one is present oneself. Returns what
     * ends that.
     * @param {string} doc
     * @param {(line: import("./session.js").Reply) => void} take
     */
    onPresence(doc: string, take: (line: import("./session.js").Reply) => void): () => void;
    /**
     * Tells a gateway where one is in a document at a revision, or with null that one has left. Says whether there is a gateway: other servers
     * aren't told.
     * @param {string} doc
     * @param {number} rev
     * @param {[number, number] | null} at
     * @returns {Promise<boolean>}
     */
    tellPresence(doc: string, rev: number, at: [number, number] | null): Promise<boolean>;
    /**
     * Tells a document of each state, beginning and cut. It listens to no event for that, since Node warns of more than ten who do. Returns
     * what ends it.
     * @param {Watcher} watcher
     */
    watch(watcher: Watcher): () => undefined;
    /**
     * Opens a document that types ahead.
     * @param {string} doc
     * @param {import("./document.js").OpenOptions} [options]
     */
    open(doc: string, options?: import("./document.js").OpenOptions | undefined): Promise<RichDocument>;
    /** Ends the session, once all that was sent is answered. What wasn't sent ends with "Closed". */
    close(): Promise<void>;
    #private;
}
export type Op = import("./delta.js").Op;
export type Limits = import("./limits.js").Limits;
export type Numbered = import("./line.js").Numbered;
export type Creation = import("./keeping.js").Creation;
export type DocumentState = import("./document.js").DocumentState;
export type DocumentEvents = import("./document.js").DocumentEvents;
export type OpenOptions = import("./document.js").OpenOptions;
export type Other = import("./presence.js").Other;
export type Range = import("./presence.js").Range;
/**
 * "full" is "offline" where the server has no place
 */
export type ClientState = "connected" | "offline" | "full" | "closed";
export type Options = {
    /**
     * the name of whoever makes the changes, which one program has at a time. Without it a page takes one of its
     * browser's, and a program a new one
     */
    source?: string | undefined;
    /**
     * the source was never used before, so its numbers needn't be asked for
     */
    isNew?: boolean | undefined;
    /**
     * how many milliseconds a call may take that names no other: 30,000 if it isn't given. Where it is given,
     * `connect` ends by it too
     */
    timeout?: number | undefined;
    /**
     * after so many milliseconds without a byte the connection is cut, and begun again; after half of them the
     * server is asked whether it is there. 30,000 if it isn't given, `Infinity` for neither
     */
    patience?: number | undefined;
    /**
     * closes the client
     */
    signal?: AbortSignal | undefined;
};
/**
 * a document that is open, which is told how its client stands
 */
export type Watcher = {
    onState: () => void;
    onConnected: () => void;
    onCut: () => void;
};
import { RichDocument } from "./document.js";
import { RichdError } from "./errors.js";
import { StateEvent } from "./events.js";
import { Emitter } from "./emitter.js";
import { Delta } from "./delta.js";
export { RichDocument, RichDocument as Document, RichdError };
