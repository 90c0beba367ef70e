/**
 * @typedef {"Timeout" | "Closed" | "Cut" | "Full" | "Replaced" | "Parted" | "InDoubt"} OwnName  of an error of the client itself
 * @typedef {"BadLine" | "BadMessage" | "BadOps" | "TooManyOps" | "NoHello" | "NoDocument" | "Exists" | "BadName" | "Gap" | "OldNumber"
 *   | "TooManySources" | "Future" | "TooOld" | "PastEnd" | "CutsPair" | "TooHeavy" | "TooWide" | "RevisionsSpent" | "NothingToUndo"
 *   | "TooManyDocuments" | "StoreFailed" | "NoMemory" | "LineTooLong" | "Deleted" | "NotAllowed"} RefusalName  of a refusal of the server, the last one of a gateway
 */
/**
 * A refusal of the server, with its number and name (13 and "TooOld"), or one of the client itself, with 0 for its number:
 * "Timeout", "Closed", "Cut" and "Full" as causes of a call that had no connection, "Replaced" where another client has come to a gateway
 * with the same source, "Parted" of an editor that showed something else, and "InDoubt" of a command that may have been taken, and isn't sent
 * again.
 */
export class RichdError extends Error {
    /**
     * @param {number} code
     * @param {string} name
     * @param {unknown} [cause]
     */
    constructor(code: number, name: string, cause?: unknown);
    code: number;
    /** @type {OwnName | RefusalName} */
    name: OwnName | RefusalName;
}
export namespace Refusal {
    const BadOps: number;
    const TooManyOps: number;
    const NoDocument: number;
    const Exists: number;
    const Gap: number;
    const OldNumber: number;
    const Future: number;
    const TooOld: number;
    const PastEnd: number;
    const CutsPair: number;
    const TooWide: number;
    const StoreFailed: number;
    const NoMemory: number;
    const LineTooLong: number;
    const Deleted: number;
    const NotAllowed: number;
}
/**
 * of an error of the client itself
 */
export type OwnName = "Timeout" | "Closed" | "Cut" | "Full" | "Replaced" | "Parted" | "InDoubt";
/**
 * of a refusal of the server, the last one of a gateway
 */
export type RefusalName = "BadLine" | "BadMessage" | "BadOps" | "TooManyOps" | "NoHello" | "NoDocument" | "Exists" | "BadName" | "Gap" | "OldNumber" | "TooManySources" | "Future" | "TooOld" | "PastEnd" | "CutsPair" | "TooHeavy" | "TooWide" | "RevisionsSpent" | "NothingToUndo" | "TooManyDocuments" | "StoreFailed" | "NoMemory" | "LineTooLong" | "Deleted" | "NotAllowed";
