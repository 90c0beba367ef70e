export class Session {
    /**
     * Opens a link, and says hello.
     * @param {import("./links.js").Address} address
     * @param {string} source
     * @param {object} options
     * @param {(line: Reply) => void} options.onNews  is called with each line of news
     * @param {(line: Reply) => void} options.onPresence  is called with each line of somebody's presence
     * @param {(cause?: Error) => void} options.onEnd  is called when the session ends that was begun
     * @param {number} options.patience  after so many milliseconds in which nothing came the session is cut; after half of them it asks
     * @param {AbortSignal} [options.signal]  cuts the session while it begins
     */
    static begin(address: import("./links.js").Address, source: string, { onNews, onPresence, onEnd, patience, signal }: {
        onNews: (line: Reply) => void;
        onPresence: (line: Reply) => void;
        onEnd: (cause?: Error) => void;
        patience: number;
        signal?: AbortSignal | undefined;
    }): Promise<Session>;
    /** @param {string} source */
    constructor(source: string);
    /** @type {Promise<void>} when the session has ended */
    ended: Promise<void>;
    /** The name that it began with. */
    get source(): string;
    /** Whether it is one of a gateway, which lends names and tells who is present. */
    get isGateway(): boolean;
    /** Whether more came than the greeting. */
    get hasServed(): boolean;
    /**
     * Sends a message. What it comes to is told to `settle`: a reply, a refusal, or "Cut" where the session ended before. A line that
     * no server takes isn't sent, and is refused at once.
     * @param {Message} message
     * @param {Settle} settle
     */
    send(message: Message, settle: Settle): any;
    /** Asks whether the other end is there, and cuts the session where it doesn't answer soon. */
    check(): void;
    /** Ends the session once all that was sent is answered. */
    end(): void;
    /** Ends the session at once. */
    cut(): void;
    #private;
}
/**
 * a line that is sent: its kind, and the members that this kind has
 */
export type Message = {
    do: string;
    source?: string | undefined;
    doc?: string | undefined;
    n?: number | undefined;
    base?: number | undefined;
    rev?: number | undefined;
    ops?: import("./delta.js").Op[] | undefined;
    at?: [number, number] | null | undefined;
};
/**
 * a line that comes, with the members that its kind has
 */
export type Reply = {
    doc?: string | undefined;
    n?: number | undefined;
    ok?: string | undefined;
    rev?: number | undefined;
    ops?: import("./delta.js").Op[] | undefined;
    deltas?: import("./delta.js").Op[][] | undefined;
    news?: number | undefined;
    ended?: number | undefined;
    code?: number | undefined;
    error?: string | undefined;
    gateway?: number | undefined;
    lease?: string | undefined;
    epoch?: number | undefined;
    presence?: number | undefined;
    at?: [number, number] | null | undefined;
    user?: string | undefined;
};
/**
 * is called once for each message, in their order, before any later line is read
 */
export type Settle = (error: RichdError | null, reply?: any) => any;
import { RichdError } from "./errors.js";
