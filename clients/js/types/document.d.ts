/**
 * Sends "change" for what others did, "trouble" where something typed is lost, "rebased" where it was fetched anew, "state" where its state is
 * another than before, and "progress" where `revision` or `isSaved` may have changed.
 *
 * `base` is the document at `revision`. What is shown is `base`, with `sent` behind it, and `typed` behind that. News that comes while
 * `sent` has no answer is held until it has one: only then is it known which revision is its own.
 *
 * @extends {Emitter<DocumentEvents>}
 */
export class RichDocument extends Emitter<DocumentEvents> {
    /**
     * @param {import("./richd.js").Client} client
     * @param {string} name
     * @param {OpenOptions} [options]
     */
    static open(client: import("./richd.js").Client, name: string, options?: OpenOptions | undefined): Promise<RichDocument>;
    /**
     * Sends an edit in parts, as it is too long for a line. Gives the revision that the last one made.
     * @param {import("./richd.js").Client} client
     * @param {string} name
     * @param {{ rev: number, ops: Op[] }} base
     * @param {Delta} edit
     * @param {import("./limits.js").Limits} limits
     * @returns {Promise<{ rev: number }>}
     */
    static send(client: import("./richd.js").Client, name: string, base: {
        rev: number;
        ops: Op[];
    }, edit: Delta, limits: import("./limits.js").Limits): Promise<{
        rev: number;
    }>;
    constructor();
    get name(): string;
    /** The last revision of the server's that is in what is shown. */
    get revision(): number;
    /**
     * What is shown: a delta of the reader's own, of operations that are frozen.
     * @returns {Delta}
     */
    get contents(): Delta;
    /** What turns values as the server keeps them into those that `contents` has, and back. */
    get values(): Values;
    /** How many units are shown: UTF-16 code units, and embeds. */
    get length(): number;
    /** Undo and redo of what was typed here. */
    get history(): History;
    /** Who else is in the document, and where; and where its own user is. */
    get presence(): Presence;
    /** Whether it is followed no longer: it was closed, or trouble came that is final. */
    get isClosed(): boolean;
    /** @returns {DocumentState} */
    get state(): DocumentState;
    /** Whether all that was typed is on the server's disk. */
    get isSaved(): boolean;
    /** Whether what is shown would outlive the page: it is on the server's disk, or kept. */
    get isKept(): boolean;
    /**
     * Changes what is shown by something that was typed. Throws what a server would refuse it by, as BadOps, LineTooLong or PastEnd: then it
     * isn't shown, and "trouble" tells of it too.
     * @param {Op[] | { ops: Op[] } | import("./delta.js").QuillDelta} ops
     * @param {{ isStep?: boolean }} [options]  whether `history` takes it back
     */
    apply(ops: Op[] | {
        ops: Op[];
    } | import("./delta.js").QuillDelta, options?: {
        isStep?: boolean | undefined;
    } | undefined): void;
    /**
     * Tells that something typed in an editor is lost.
     * @param {TroubleEvent} event
     */
    lose(event: TroubleEvent): void;
    /**
     * Says how an editor stands that is bound to it: "typing" while something is typed there that isn't here yet, "parted" where it can't show
     * what is here, and undefined where it does.
     * @param {object} editor
     * @param {"typing" | "parted" | undefined} how
     */
    stand(editor: object, how: "typing" | "parted" | undefined): void;
    /**
     * Whether a change begins or ends between the two halves of a character.
     * @param {{ ops: Op[] }} change  as the server keeps it
     */
    cutsPair(change: {
        ops: Op[];
    }): boolean;
    /**
     * Waits until all that was typed is on the server's disk.
     * @returns {Promise<number>} the revision then
     */
    flush(): Promise<number>;
    /** Follows it no longer. What was sent is still answered; what wasn't is dropped. */
    close(): void;
    #private;
}
/**
 * How a document stands, the first of these that holds:
 * - `closed`: nothing more is taken, as trouble said that was final, or `close` was called;
 * - `offline`: there is no connection, `full`: because the server has no place; what is typed is sent once there is one;
 * - `storeFailed`: the server's store has failed; what was typed is sent until the server is started anew;
 * - `refused`: what was typed last was refused, and is no longer shown, as trouble said;
 * - `parted`: an editor that was bound to it couldn't show it, as trouble said, and is disabled;
 * - `saving`: something typed isn't on the server's disk yet;
 * - `saved`: all is.
 */
export type DocumentState = "closed" | "offline" | "full" | "storeFailed" | "refused" | "parted" | "saving" | "saved";
/**
 * How a document stands, the first of these that holds:
 * - `closed`: nothing more is taken, as trouble said that was final, or `close` was called;
 * - `offline`: there is no connection, `full`: because the server has no place; what is typed is sent once there is one;
 * - `storeFailed`: the server's store has failed; what was typed is sent until the server is started anew;
 * - `refused`: what was typed last was refused, and is no longer shown, as trouble said;
 * - `parted`: an editor that was bound to it couldn't show it, as trouble said, and is disabled;
 * - `saving`: something typed isn't on the server's disk yet;
 * - `saved`: all is.
 */
export type Op = import("./delta.js").Op;
/**
 * How a document stands, the first of these that holds:
 * - `closed`: nothing more is taken, as trouble said that was final, or `close` was called;
 * - `offline`: there is no connection, `full`: because the server has no place; what is typed is sent once there is one;
 * - `storeFailed`: the server's store has failed; what was typed is sent until the server is started anew;
 * - `refused`: what was typed last was refused, and is no longer shown, as trouble said;
 * - `parted`: an editor that was bound to it couldn't show it, as trouble said, and is disabled;
 * - `saving`: something typed isn't on the server's disk yet;
 * - `saved`: all is.
 */
export type OpenOptions = {
    /**
     * what the document is created with where it isn't there
     */
    create?: import("./delta.js").Op[] | {
        insert?: string | Record<string, unknown> | undefined;
        retain?: number | Record<string, unknown> | undefined;
        delete?: number | undefined;
        attributes?: Record<string, unknown> | undefined;
    }[] | undefined;
    /**
     * what the server keeps in a value's place, as JSON in a text for an object if it isn't given
     */
    encode?: import("./values.js").Encode | undefined;
    /**
     * the other way
     */
    decode?: import("./values.js").Decode | undefined;
    /**
     * keeps what isn't on the server's disk yet; `richd/offline` gives one
     */
    keeper?: import("./keeping.js").Keeper | undefined;
};
/**
 * The events of a document, by their names.
 */
export type DocumentEvents = {
    change: ChangeEvent;
    trouble: TroubleEvent | import("./events.js").PartedEvent;
    doubt: DoubtEvent;
    unkept: UnkeptEvent;
    rebased: RebasedEvent;
    state: StateEvent<DocumentState>;
    progress: Event;
};
import { Emitter } from "./emitter.js";
import { Delta } from "./delta.js";
import { Values } from "./values.js";
import { History } from "./history.js";
import { Presence } from "./presence.js";
import { TroubleEvent } from "./events.js";
import { ChangeEvent } from "./events.js";
import { DoubtEvent } from "./events.js";
import { UnkeptEvent } from "./events.js";
import { RebasedEvent } from "./events.js";
import { StateEvent } from "./events.js";
