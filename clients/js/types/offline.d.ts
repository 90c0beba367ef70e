/**
 * Gives a client that keeps what it opens. It is there at once, whether or not a server is.
 * @param {import("./links.js").Address & OfflineOptions} options
 * @param {Promise<OfflinePage | undefined> | OfflinePage} [page]  what the page has; it finds that itself
 */
export function connect(options: import("./links.js").Address & OfflineOptions, page?: OfflinePage | Promise<OfflinePage | undefined> | undefined): Promise<OfflineClient>;
/**
 * @typedef {import("./document.js").OpenOptions} OpenOptions
 * @typedef {import("./document.js").RichDocument} RichDocument
 * @typedef {import("./keeping.js").Store} Store
 *
 * @typedef {object} OfflineOptions
 * @property {string} [server]  a name for the server, under which its documents are kept: the `url` if it isn't given, and is a text
 * @property {number} [timeout]  as `connect` of `richd` takes them
 * @property {number} [patience]
 * @property {AbortSignal} [signal]
 *
 * @typedef {import("./sources.js").Page & { store: Store, target: EventTarget }} OfflinePage  what a page has that keeps documents
 */
/** What another page left can't be sent: `delta` is what was typed in the document `doc`, and `error` says why. */
export class LeftEvent extends Event {
    /** @param {string} doc @param {import("./delta.js").Delta} delta @param {RichdError} error */
    constructor(doc: string, delta: import("./delta.js").Delta, error: RichdError);
    doc: string;
    delta: import("./delta.js").Delta;
    error: RichdError;
}
/**
 * Sends "left" besides what a client sends.
 * @extends {Client<{ left: LeftEvent }>}
 */
export class OfflineClient extends Client<{
    left: LeftEvent;
}> {
    /**
     * @param {import("./links.js").Address & OfflineOptions} options
     * @param {import("./sources.js").Taken} taken
     * @param {OfflinePage} [page]  without it nothing is kept
     */
    constructor(options: import("./links.js").Address & OfflineOptions, { source, isNew, release }: import("./sources.js").Taken, page?: OfflinePage | undefined);
    /** Whether the browser keeps what is typed. */
    get keeps(): boolean;
    /** Whether all that is shown would outlive the page. Where it wouldn't, the browser asks before the page goes. */
    get isKept(): boolean;
    #private;
}
export type OpenOptions = import("./document.js").OpenOptions;
export type RichDocument = import("./document.js").RichDocument;
export type Store = import("./keeping.js").Store;
export type OfflineOptions = {
    /**
     * a name for the server, under which its documents are kept: the `url` if it isn't given, and is a text
     */
    server?: string | undefined;
    /**
     * as `connect` of `richd` takes them
     */
    timeout?: number | undefined;
    patience?: number | undefined;
    signal?: AbortSignal | undefined;
};
/**
 * what a page has that keeps documents
 */
export type OfflinePage = import("./sources.js").Page & {
    store: Store;
    target: EventTarget;
};
import { RichdError } from "./errors.js";
import { Client } from "./richd.js";
