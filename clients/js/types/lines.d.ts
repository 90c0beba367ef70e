/**
 * A line of news, one of somebody's presence, a refusal, or what may be another reply; undefined where it is none of them.
 * @param {string} text
 * @returns {Reply | undefined}
 */
export function readLine(text: string): Reply | undefined;
/**
 * Whether a reply that is no refusal answers a message.
 * @param {Reply} reply
 * @param {Message} message
 */
export function isReplyTo(reply: Reply, message: Message): boolean;
/**
 * @typedef {import("./session.js").Message} Message
 * @typedef {import("./session.js").Reply} Reply
 */
/** Parts bytes in lines. */
export class LineReader {
    /** @param {number} [most]  units of a line */
    constructor(most?: number | undefined);
    /**
     * The lines that end in these bytes; undefined where one is too long, or no UTF-8.
     * @param {Uint8Array} bytes
     * @returns {string[] | undefined}
     */
    read(bytes: Uint8Array): string[] | undefined;
    #private;
}
export type Message = import("./session.js").Message;
export type Reply = import("./session.js").Reply;
