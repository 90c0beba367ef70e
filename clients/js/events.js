// What a document tells.

import { RichdError } from "./errors.js";

/**
 * @typedef {import("./delta.js").Delta} Delta
 */

/** What others did, or an undo or redo, as `isOwn` says: `delta` changes what was shown before to `contents`. */
export class ChangeEvent extends Event {
  /** @param {Delta} delta @param {boolean} isOwn */
  constructor(delta, isOwn) {
    super("change");
    this.delta = delta;
    this.isOwn = isOwn;
  }
}

/**
 * Something that was typed is lost: `delta` is what, as a change of what is left without it, and `error` says why. Where `isFinal` holds
 * the document is closed, and shows what it last showed.
 */
export class TroubleEvent extends Event {
  /** @param {RichdError} error @param {Delta} delta @param {boolean} isFinal */
  constructor(error, delta, isFinal) {
    super("trouble");
    this.error = error;
    this.delta = delta;
    this.isFinal = isFinal;
  }
}

/**
 * Trouble named "Parted": an editor was found with `shown`, where the document has `contents`. `delta` is what was typed there, and is lost. Where
 * `isDisabled` holds the editor can't show the document, and takes nothing more; the document itself is open.
 */
export class PartedEvent extends TroubleEvent {
  /** @param {Delta} delta @param {Delta} contents @param {Delta} shown @param {boolean} isDisabled */
  constructor(delta, contents, shown, isDisabled) {
    super(new RichdError(0, "Parted"), delta, false);
    this.contents = contents;
    this.shown = shown;
    this.isDisabled = isDisabled;
  }
}

/**
 * An edit that was sent, before the page was loaded or under a name that a gateway has lent to another since, so that it can't be known whether
 * it was taken. It isn't sent again, and isn't shown: where it was taken it comes as others' changes do. `delta` is the edit, on the document at
 * `revision`.
 */
export class DoubtEvent extends Event {
  /** @param {Delta} delta @param {number} revision */
  constructor(delta, revision) {
    super("doubt");
    this.delta = delta;
    this.revision = revision;
  }
}

/**
 * The document was fetched anew, as its past from revision `from` on is no longer held: what was typed meanwhile was moved onto revision `to`,
 * past what makes one of the other. The history has ended.
 */
export class RebasedEvent extends Event {
  /** @param {number} from @param {number} to */
  constructor(from, to) {
    super("rebased");
    this.from = from;
    this.to = to;
  }
}

/**
 * How it stands, `state`, is another than before.
 * @template {string} State
 */
export class StateEvent extends Event {
  /** @param {State} state */
  constructor(state) {
    super("state");
    this.state = state;
  }
}

/** Others who are in the document came, went or moved: `others` are all that are there now. */
export class PresenceEvent extends Event {
  /** @param {import("./presence.js").Other[]} others */
  constructor(others) {
    super("change");
    this.others = others;
  }
}

/** What is shown couldn't be kept, by `error`. It is tried again, and nothing that isn't kept is sent meanwhile. */
export class UnkeptEvent extends Event {
  /** @param {unknown} error */
  constructor(error) {
    super("unkept");
    this.error = error;
  }
}
