/**
 * @typedef {import("./delta.js").Delta} Delta
 * @typedef {"undo" | "redo"} Way
 */
/**
 * What a document's user did, in steps as a stretch of typing. What others do moves the steps, and takes away those of which nothing is
 * left. Where the document is fetched anew, or something typed is taken back, there are none any more.
 */
export class History {
    /** @param {Steps} steps @param {(way: Way) => boolean} turn */
    constructor(steps: Steps, turn: (way: Way) => boolean);
    /** Whether there is something to undo. */
    get canUndo(): boolean;
    /** Whether there is something to redo. */
    get canRedo(): boolean;
    /** Takes the last step back, which the document's "change" tells. Returns whether there was one. */
    undo(): boolean;
    /** Does again what was undone last, where nothing was typed since. Returns whether there was something. */
    redo(): boolean;
    /** Lets what is typed next be a step of its own. */
    endStep(): void;
    /** Forgets all steps. */
    clear(): void;
    #private;
}
/** The steps back and forth. Each is made on what is shown once those behind it are done. */
export class Steps {
    /** @param {Way} way */
    has(way: Way): boolean;
    /**
     * Keeps what takes back something that was typed.
     * @param {Delta} back
     */
    record(back: Delta): void;
    /**
     * Takes the next step of a way, and keeps what takes it back. Undefined where there is none.
     * @param {Way} way
     * @param {Delta} contents  what is shown
     */
    take(way: Way, contents: Delta): import("./delta.js").Delta | undefined;
    /**
     * Moves the steps past what somebody else did.
     * @param {Delta} change  as it is shown
     */
    move(change: Delta): void;
    end(): void;
    clear(): void;
    #private;
}
export type Delta = import("./delta.js").Delta;
export type Way = "undo" | "redo";
