// What may go wrong.

/**
 * @typedef {"Timeout" | "Closed" | "Cut" | "Full" | "Replaced" | "Parted" | "InDoubt"} OwnName  of an error of the client itself
 * @typedef {"BadLine" | "BadMessage" | "BadOps" | "TooManyOps" | "NoHello" | "NoDocument" | "Exists" | "BadName" | "Gap" | "OldNumber"
 *   | "TooManySources" | "Future" | "TooOld" | "PastEnd" | "CutsPair" | "TooHeavy" | "TooWide" | "RevisionsSpent" | "NothingToUndo"
 *   | "TooManyDocuments" | "StoreFailed" | "NoMemory" | "LineTooLong" | "Deleted" | "NotAllowed"} RefusalName  of a refusal of the server, the last one of a gateway
 */

/**
 * A refusal of the server, with its number and name (13 and "TooOld"), or one of the client itself, with 0 for its number:
 * "Timeout", "Closed", "Cut" and "Full" as causes of a call that had no connection, "Replaced" where another client has come to a gateway
 * with the same source, "Parted" of an editor that showed something else, and "InDoubt" of a command that may have been taken, and isn't sent
 * again.
 */
export class RichdError extends Error {
  /**
   * @param {number} code
   * @param {string} name
   * @param {unknown} [cause]
   */
  constructor(code, name, cause) {
    super(code === 0 ? name : `${code} ${name}`, cause === undefined ? undefined : { cause });
    this.code = code;
    /** @type {OwnName | RefusalName} */
    this.name = /** @type {any} */ (name);
  }
}

/** The numbers of the refusals that the client itself answers in some way. */
export const Refusal = {
  BadOps: 3,
  TooManyOps: 4,
  NoDocument: 6,
  Exists: 7,
  Gap: 9,
  OldNumber: 10,
  Future: 12,
  TooOld: 13,
  PastEnd: 14,
  CutsPair: 15,
  TooWide: 17,
  StoreFailed: 21,
  NoMemory: 22,
  LineTooLong: 23,
  Deleted: 40,
  NotAllowed: 60,
};
