/**
 * Writes what a document is whenever it has changed, one write at a time. Where a write fails it tries again, after a while: until then
 * nothing that isn't written leaves.
 */
export class Keeper {
    /**
     * @param {Store} store
     * @param {Key} key  of the document, and behind it "base" for what the server has of it
     */
    constructor(store: Store, key: Key);
    /** @type {Promise<void>} when nothing more will be written */
    ended: Promise<void>;
    /** @returns {Promise<Kept | { creation: Creation } | undefined>} */
    load(): Promise<Kept | {
        creation: Creation;
    } | undefined>;
    /**
     * Keeps how a document is created, before that leaves. Where the browser refuses the write it leaves all the same: then its page has it alone.
     * @param {Creation} creation
     */
    keep(creation: Creation): Promise<void>;
    /**
     * Keeps a document from here on, and has it tell of it by "progress" and "unkept".
     * @param {EventTarget} document
     * @param {() => Snapshot} read
     */
    watch(document: EventTarget, read: () => Snapshot): void;
    /** Ends with the keeper: what hasn't left by then stays here. */
    get signal(): AbortSignal;
    /** Whether what is shown is written. */
    get isUpToDate(): boolean;
    /** Waits until what is there now is written, and throws the reason where the keeper ends before. */
    write(): Promise<void>;
    /**
     * Writes what is there a last time.
     * @param {any} reason
     */
    close(reason: any): void;
    /**
     * Drops what is kept.
     * @param {any} reason
     */
    forget(reason: any): void;
    #private;
}
export type Op = import("./delta.js").Op;
export type Delta = import("./delta.js").Delta;
export type Key = (string | number)[];
/**
 * what a page keeps, as database.js does in IndexedDB
 */
export type Store = {
    /**
     * undefined where there is nothing
     */
    get: (key: Key) => Promise<any>;
    /**
     * is done once all of it is on the disk, and does all or nothing
     */
    put: (pairs: [Key, any][], dropped?: Key[]) => Promise<void>;
    keys: () => Promise<Key[]>;
};
/**
 * what a document that types ahead is at a moment
 */
export type Snapshot = {
    base: Delta;
    revision: number;
    isStale: boolean;
    sent: Delta | null;
    /**
     * of `sent`, once it may leave
     */
    number?: number | undefined;
    /**
     * under which the number counts
     */
    lease?: import("./leases.js").Lease | undefined;
    typed: Delta;
};
/**
 * the same, as it was kept
 */
export type Kept = {
    base: Op[];
    revision: number;
    isStale: boolean;
    sent: Op[] | null;
    number?: number | undefined;
    lease?: import("./leases.js").Lease | undefined;
    typed: Op[];
    creation?: undefined;
};
/**
 * a document that is created in parts
 */
export type Creation = {
    /**
     * what it is created with
     */
    first: Op[];
    /**
     * what is inserted then
     */
    rest: Op[];
    /**
     * under which it is created
     */
    number: number;
    /**
     * under which the number counts
     */
    lease?: import("./leases.js").Lease | undefined;
};
