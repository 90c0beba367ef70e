// Binds an editor to a document: Quill, or whatever has its `getContents`, `setContents`, `updateContents` and `on("text-change")`.

import { Delta, lengthOf } from "./delta.js";
import { difference } from "./difference.js";
import { RichdError } from "./errors.js";
import { PartedEvent, TroubleEvent } from "./events.js";
import { cutsPair, growthOf, hasHalf, reachOf } from "./operations.js";
import { Showing } from "./showing.js";

const MOST_LINES = 20; // of which the formats are taken away, until the editor shows the text

/**
 * @typedef {import("./delta.js").Op} Op
 * @typedef {import("./document.js").RichDocument} RichDocument
 *
 * @callback Upload  keeps what an embed has as a data URL, as a pasted image does, and gives the URL that is put in its place
 * @param {string} dataUrl
 * @param {string} name  the embed's, as "image"
 * @returns {Promise<string> | string}
 *
 * @typedef {object} Cursors  what shows carets and selections: quill-cursors, or what has these three of its methods
 * @property {(id: string, name: string, color: string) => unknown} createCursor
 * @property {(id: string, range: import("./presence.js").Range) => void} moveCursor
 * @property {(id: string) => void} removeCursor
 *
 * @typedef {object} BindOptions
 * @property {Upload} [upload]  without it an embed goes into the document as it is, or is refused where it is too long for a line
 * @property {(user: string) => string} [colorOf]  the color of somebody's caret, one for each name if it isn't given
 */

/** A color for a name. @param {string} name */
function colorFor(name) {
  let sum = 0;
  for (let index = 0; index < name.length; index += 1) sum = (Math.imul(sum, 31) + name.charCodeAt(index)) >>> 0;
  const hue = (Math.imul(sum, 0x9e3779b1) >>> 0) / 2 ** 32; // names that are alike have colors that aren't
  return `hsl(${Math.round(360 * hue)}, 70%, 40%)`;
}

/**
 * Where a change has its end, as the place of a caret.
 * @param {Delta} change
 * @param {Delta} document  that it made
 */
function endOf(change, document) {
  const end = change.ops.reduce((length, op) => length + (op.delete === undefined ? lengthOf(op) : 0), 0);
  const last = change.ops.at(-1);
  const isLine = last?.delete === undefined && document.slice(end - 1, end).ops[0]?.insert === "\n";
  return isLine ? end - 1 : end;
}

/**
 * Shows a document in an editor, and keeps both alike. An editor of Quill's kind wants a line's end at the end of its contents, which is
 * added to the document where it has none. Undo and redo of the editor are the document's. Formats and embeds that the editor doesn't have
 * aren't shown, and stay in the document; what it has and doesn't show where it stands, as bold in a block of code, is taken out of the document.
 * What the document refuses is taken out of the editor again, and the document's "trouble" tells of it; so it does where the editor is found
 * to show something else than the document ("Parted"). Where the document is closed the editor is disabled, and so is one that can't show it.
 * Where the editor has the module "cursors", which is quill-cursors, it shows the carets and selections of others, and they are told of its
 * user's.
 * @param {any} quill
 * @param {RichDocument} document
 * @param {BindOptions} [options]
 * @returns {() => void} ends the binding
 */
export function bind(quill, document, options) {
  const binding = new Binding(quill, document, options);
  return () => binding.end();
}

/**
 * While an input method composes a character the editor is left alone: `held` is what others did meanwhile, and the document is what the
 * editor shows with `held` behind it.
 */
class Binding {
  #quill;
  #document;
  #upload;
  #source = { name: "richd" }; // of what this binding does to the editor; all else was typed
  #showing;
  #held = new Delta();
  #isComposing = false;
  #isTurning = false; // the editor was asked for undo or redo
  #mayMend = true; // nothing was refused since something was typed
  /** @type {Delta[]} what the user did, and the editor told before it told what it was asked */
  #within = [];
  /** @type {Set<{ index: number }>} where what is uploaded will stand */
  #places = new Set();
  /** @type {{ place: { index: number }, op: Op }[]} */
  #uploaded = [];
  /** @type {Cursors | undefined} */
  #cursors;
  #colorOf;
  /** @type {Set<string>} those that are shown */
  #shown = new Set();
  #ending = new AbortController();

  /** @param {any} quill @param {RichDocument} document @param {BindOptions} [options] */
  constructor(quill, document, options) {
    this.#quill = quill;
    this.#document = document;
    this.#upload = options?.upload;
    this.#colorOf = options?.colorOf ?? colorFor;
    this.#showing = new Showing(quill, document.values, this.#source);
    if (document.isClosed) {
      this.#showing.set(this.#contents);
      return void quill.enable?.(false);
    }
    this.#takeOverHistory();
    this.#addLineEnd();
    this.#showAnew();
    if (this.#ending.signal.aborted) return;
    const { signal } = this.#ending;
    quill.on("text-change", this.#onTyped);
    document.addEventListener("change", ({ delta, isOwn }) => this.#onChange(new Delta(document.values.encode(delta.ops)), isOwn), { signal });
    document.addEventListener("state", ({ state }) => state === "closed" && this.#close(), { signal });
    document.addEventListener("trouble", () => (this.#mayMend = false), { signal });
    quill.root?.addEventListener("compositionstart", () => this.#beginComposition(), { signal });
    quill.root?.addEventListener("compositionend", () => queueMicrotask(() => this.#afterComposition()), { signal });
    // A composition whose place is gone from the page may end without a word.
    for (const name of ["keydown", "input", "blur"]) quill.root?.addEventListener(name, (/** @type {any} */ event) => this.#notice(event), { signal });
    const view = quill.root?.ownerDocument?.defaultView;
    view?.addEventListener("error", () => queueMicrotask(() => this.#afterError()), { signal });
    this.#cursors = quill.getModule?.("cursors") ?? undefined;
    if (this.#cursors !== undefined) this.#bePresent();
  }

  // What the document has, as the server keeps it.
  get #contents() {
    return new Delta(this.#document.values.encode(this.#document.contents.ops));
  }

  // The editor's own history can't know what others did.
  #takeOverHistory() {
    const { history } = this.#quill;
    if (!history) return;
    history.clear?.();
    const steps = this.#document.history;
    const turn = (/** @type {"undo" | "redo"} */ way) => {
      this.#quill.update?.("user"); // what is in the page, and wasn't told yet, was done before
      this.#isTurning = true;
      steps[way]();
      this.#isTurning = false;
    };
    const calls = {
      change: turn, // which keys and the two calls after it come to in Quill
      undo: () => turn("undo"),
      redo: () => turn("redo"),
      cutoff: () => steps.endStep(),
      clear: () => steps.clear(),
      record() {},
      transform() {},
    };
    const own = Object.fromEntries(Object.keys(calls).map((name) => [name, Object.getOwnPropertyDescriptor(history, name)]));
    Object.assign(history, calls);
    this.#ending.signal.addEventListener("abort", () => {
      for (const [name, descriptor] of Object.entries(own)) {
        delete history[name];
        if (descriptor !== undefined) Object.defineProperty(history, name, descriptor);
      }
    });
  }

  end() {
    this.#quill.off?.("text-change", this.#onTyped);
    this.#ending.abort();
    this.#document.stand(this.#quill, undefined);
    if (this.#cursors === undefined) return;
    this.#quill.off?.("selection-change", this.#onSelected);
    this.#document.presence.set(null);
    this.#showCursors([]);
  }

  // Until its user has put the caret somewhere he is at the beginning.
  #bePresent() {
    const { presence } = this.#document;
    this.#quill.on("selection-change", this.#onSelected);
    presence.addEventListener("change", () => this.#showCursors(), { signal: this.#ending.signal });
    presence.set(this.#quill.getSelection?.() ?? { index: 0, length: 0 });
  }

  /** @param {import("./presence.js").Range | null} range  null where the editor isn't the one that is typed in: then its user stays where he was */
  #onSelected = (range) => {
    if (range === null) return;
    const [start, end] = [range.index, range.index + range.length].map((index) => this.#held.transformPosition(index, true));
    this.#document.presence.set({ index: start, length: end - start });
  };

  // While the editor is left alone the places of the others aren't those of what it shows.
  #showCursors(others = this.#document.presence.others) {
    if (this.#cursors === undefined || this.#held.ops.length > 0) return;
    const gone = new Set(this.#shown);
    for (const { id, user, range } of others) {
      if (!gone.delete(id)) this.#cursors.createCursor(id, user, this.#colorOf(user));
      this.#shown.add(id);
      this.#cursors.moveCursor(id, range);
    }
    for (const id of gone) {
      this.#shown.delete(id);
      this.#cursors.removeCursor(id);
    }
  }

  #close() {
    this.end();
    this.#quill.enable?.(false);
  }

  // Puts the line's end at the document's end where a change took it away.
  /** @param {Delta} change */
  #mendEnd(change) {
    const reachesEnd = reachOf(change) === this.#document.length - growthOf(change);
    if (reachesEnd && this.#addLineEnd() && this.#held.ops.length === 0) this.#setRight();
  }

  /** Returns whether the document had no line's end at its end. */
  #addLineEnd() {
    const last = this.#document.contents.ops.at(-1)?.insert;
    if (typeof last === "string" && last.endsWith("\n")) return false;
    return this.#mend(new Delta().retain(this.#document.length).insert("\n"));
  }

  /**
   * Changes the document so that the editor can show it, unless its user may not. Returns whether it did.
   * @param {Delta} change
   */
  #mend(change) {
    if (!this.#mayMend || this.#quill.isEnabled?.() === false) return false;
    try {
      this.#document.apply(this.#document.values.decode(change.ops), { isStep: false });
      return true;
    } catch (error) {
      if (!(error instanceof RichdError)) throw error;
      return false;
    }
  }

  /** @param {Delta} delta @param {Delta | undefined} before @param {unknown} source */
  #onTyped = (delta, before, source) => {
    const showing = this.#showing;
    if (showing.hears(delta, source)) return;
    const told = showing.read(delta);
    if (showing.isAsking && source === "user" && !showing.hasTold) return void this.#within.push(told);
    const typed = this.#isWhole(told, before) ? told : this.#wholeOf(told, before);
    this.#mayMend = true;
    const shown = before === undefined ? this.#showing.contents().length() - growthOf(typed) : new Delta(before.ops).length();
    if (shown + growthOf(this.#held) !== this.#document.length) return this.#onParted(typed);
    const held = this.#held;
    this.#held = typed.transform(held, false);
    this.#take(held.transform(typed, true));
  };

  /**
   * Whether what was typed is of whole characters and values.
   * @param {Delta} typed
   * @param {Delta | undefined} before  what it was made on, which is the document where nothing is held
   */
  #isWhole(typed, before) {
    const areWhole = typed.ops.every(({ insert, retain }) => (typeof insert !== "string" || !hasHalf(insert)) && typeof retain !== "object");
    if (!areWhole || before === undefined) return areWhole;
    return this.#held.ops.length === 0 ? !this.#document.cutsPair(typed) : !cutsPair(typed, before);
  }

  /**
   * What was typed, in whole characters and values: an editor compares by code units.
   * @param {Delta} typed
   * @param {Delta | undefined} before
   */
  #wholeOf(typed, before) {
    return before === undefined ? typed : difference(this.#showing.read(before), this.#showing.contents());
  }

  // Quill may have thrown at what its user did, and then tells nothing more of that.
  #afterError() {
    if (this.#ending.signal.aborted || this.#isComposing) return;
    this.#quill.update?.("user");
    if (this.#ending.signal.aborted || this.#showing.shows(this.#contents)) return;
    const shown = this.#showing.contents();
    this.#showAnew();
    if (!this.#ending.signal.aborted) this.#document.lose(this.#parted(new Delta(), shown, false));
  }

  // The editor shows something else than the document, so nobody knows where it was typed.
  /** @param {Delta} typed */
  #onParted(typed) {
    const shown = this.#showing.contents();
    this.#setRight();
    if (!this.#ending.signal.aborted) this.#document.lose(this.#parted(typed, shown, false));
  }

  /** @param {Delta} typed @param {Delta} shown @param {boolean} isDisabled */
  #parted(typed, shown, isDisabled) {
    const { values, contents } = this.#document;
    return new PartedEvent(new Delta(values.decode(typed.ops)), contents, new Delta(values.decode(shown.ops)), isDisabled);
  }

  /**
   * Hands on what was typed, or takes it out of the editor again.
   * @param {Delta} typed
   */
  #take(typed) {
    const [rest, uploads] = this.#upload === undefined ? [typed, []] : this.#withoutUploads(typed);
    try {
      if (rest.ops.length > 0) this.#document.apply(this.#document.values.decode(rest.ops));
    } catch (error) {
      if (!(error instanceof RichdError)) throw error;
      if (error.name === "Closed") return this.#close();
      return this.#setRight();
    }
    this.#mendEnd(rest);
    for (const place of this.#places) place.index = rest.transformPosition(place.index);
    for (const upload of uploads) this.#start(upload);
    if (uploads.length > 0) this.#setRight();
  }

  // What is uploaded, or composed, isn't in the document yet.
  #stand() {
    if (this.#ending.signal.aborted) return;
    const isTyping = this.#isComposing || this.#places.size > 0;
    this.#document.stand(this.#quill, isTyping ? "typing" : undefined);
  }

  /**
   * What was typed without what is uploaded first, and where that will stand.
   * @param {Delta} typed
   * @returns {[Delta, { index: number, op: Op }[]]}
   */
  #withoutUploads(typed) {
    const rest = new Delta();
    const uploads = [];
    let index = 0;
    for (const op of typed.ops) {
      const [value] = typeof op.insert === "object" ? Object.values(op.insert) : [];
      if (typeof value === "string" && value.startsWith("data:")) {
        uploads.push({ index, op });
        continue;
      }
      rest.push(op);
      if (op.delete === undefined) index += lengthOf(op);
    }
    return [rest.chop(), uploads];
  }

  /** @param {{ index: number, op: Op }} upload */
  async #start({ index, op }) {
    const [[name, value]] = /** @type {[string, string][]} */ (Object.entries(op.insert));
    const place = { index };
    this.#places.add(place);
    this.#stand();
    try {
      const url = await this.#upload(value, name);
      this.#uploaded.push({ place, op: { ...op, insert: { [name]: url } } });
      this.#show();
    } catch (error) {
      this.#places.delete(place);
      this.#stand();
      const lost = new Delta().retain(place.index).push(op);
      if (!this.#ending.signal.aborted) this.#document.lose(new TroubleEvent(error, lost, false));
    }
  }

  /** @param {Delta} change @param {boolean} isOwn */
  #onChange(change, isOwn) {
    this.#held = this.#held.compose(change);
    for (const place of this.#places) place.index = change.transformPosition(place.index);
    this.#show();
    const isHere = isOwn && (this.#isTurning || this.#quill.hasFocus?.() === true);
    if (isHere && this.#held.ops.length === 0) this.#quill.setSelection?.(endOf(change, this.#document.contents), 0);
  }

  #beginComposition() {
    this.#isComposing = true;
    this.#stand();
  }

  /** @param {{ isComposing?: boolean }} event */
  #notice({ isComposing }) {
    if (this.#isComposing && !isComposing) this.#afterComposition();
  }

  #afterComposition() {
    this.#isComposing = false;
    this.#show();
    this.#stand();
  }

  // Shows what is held, and puts in what was uploaded, unless a character is being composed.
  #show() {
    if (this.#isComposing || this.#ending.signal.aborted) return;
    this.#quill.update?.("user"); // what is in the page, and wasn't told yet, was done before
    const change = this.#held;
    this.#held = new Delta();
    if (change.ops.length > 0) this.#update(change);
    if (this.#ending.signal.aborted) return;
    this.#showCursors();
    this.#mendEnd(change);
    for (const { place, op } of this.#uploaded.splice(0)) {
      this.#places.delete(place);
      const source = this.#quill.isEnabled?.() === false ? "api" : "user"; // one that is disabled takes nothing of its user
      this.#quill.updateContents(new Delta().retain(place.index).push(op), source);
      this.#stand();
    }
  }

  /**
   * Changes the editor. What its user did and it tells meanwhile was done before, and is moved past the change; where it doesn't tell the
   * change itself, that is in what it tells.
   * @param {Delta} change
   */
  #update(change) {
    const how = this.#showing.update(change);
    if (how === "failed") return this.#showAnew();
    if (this.#within.length === 0) return void (how === "other" && this.#agree());
    const typed = this.#within.splice(0).reduce((all, next) => all.compose(next));
    if (this.#showing.hasTold) this.#take(change.transform(typed, true));
    else this.#takeShown();
    this.#setRight();
  }

  // Takes what the editor shows and the document doesn't have.
  #takeShown() {
    this.#take(difference(this.#showing.wantedOf(this.#contents), this.#showing.contents()));
  }

  // Makes the editor show the document, whatever it shows now.
  #setRight() {
    this.#held = new Delta();
    const change = difference(this.#showing.contents(), this.#showing.wantedOf(this.#contents));
    const how = this.#showing.update(change);
    if (this.#within.splice(0).length > 0) this.#takeShown();
    if (how === "failed") this.#showAnew();
    else if (how === "other") this.#agree();
  }

  // Has the editor and the document agree on formats, where the editor did something else than it was asked.
  #agree() {
    const change = this.#showing.agree(this.#contents);
    if (this.#within.splice(0).length > 0) this.#takeShown();
    if (change === undefined) this.#showAnew();
    else if (change.ops.length > 0) this.#mend(change);
  }

  // The editor threw, or shows another text than it was asked to. Where it can't show the document's text by the formats of its lines these
  // are taken out of the document; one that can't show it even so is given up.
  #showAnew() {
    this.#held = new Delta();
    const range = this.#quill.getSelection?.();
    let lines = 0;
    while (!this.#showing.set(this.#contents)) {
      const plainer = this.#showing.plainer(this.#contents);
      lines += 1;
      if (plainer.ops.length === 0 || lines > MOST_LINES || !this.#mend(plainer)) return this.#giveUp();
    }
    this.#within = [];
    if (range) this.#quill.setSelection?.(range.index, range.length, "silent");
    const change = this.#showing.agree(this.#contents);
    if (change === undefined) return this.#giveUp();
    if (change.ops.length > 0) this.#mend(change);
  }

  #giveUp() {
    const event = this.#parted(new Delta(), this.#showing.contents(), true);
    this.#close();
    this.#document.stand(this.#quill, "parted");
    this.#document.dispatchEvent(event);
  }
}
