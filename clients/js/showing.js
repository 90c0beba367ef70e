// What an editor of Quill's kind shows of a document: the formats and embeds that it has.

import { Delta, areAlike, areSame, lengthOf, valueOf } from "./delta.js";
import { Units } from "./difference.js";
import { hasten } from "./hastening.js";

const PLACEHOLDER = "\ufffc"; // is shown for an embed that the editor doesn't have
const MOST_TRIES = 3; // Quill 1 sets contents right the second time after it has thrown, as it is in a batch then that never ended

/**
 * @typedef {import("./delta.js").Op} Op
 * @typedef {import("./delta.js").Attributes} Attributes
 * @typedef {import("./values.js").Values} Values
 *
 * @typedef {object} Stretch  so many units that are shown with the same attributes, and are to be
 * @property {number} length
 * @property {Attributes | undefined} wanted
 * @property {Attributes | undefined} shown
 */

/** @param {Op["insert"]} insert */
const nameOf = (insert) => (typeof insert === "object" ? Object.keys(insert)[0] : undefined);

/** @param {Op[]} ops */
const textOf = (ops) => ops.map(({ insert }) => (typeof insert === "string" ? insert : PLACEHOLDER)).join("");

/** @param {string[]} names */
const removed = (names) => Object.fromEntries(names.map((name) => [name, null]));

/**
 * Asks an editor, and reads it. All operations are as the server keeps them.
 *
 * Text stays as it was typed. Quill 1 reads the text of its page in the normal form NFC, and so counts fewer places than the page has where
 * somebody typed letters and accents apart; its class for texts is set to read them as they are, which is what Quill 2's does. Its class for
 * deltas is set to compose at the speed of the change, whatever the document's length.
 */
export class Showing {
  #quill;
  #values;
  #source;
  #registry;
  /** @type {Map<string, any>} what the editor has under a name */
  #known = new Map();
  /** @type {Delta | undefined} what the editor told when it was last asked */
  #told;
  isAsking = false;

  /** @param {any} quill @param {Values} values @param {unknown} source  of what the editor is asked */
  constructor(quill, values, source) {
    this.#quill = quill;
    this.#values = values;
    this.#source = source;
    const { scroll, constructor: Quill } = quill;
    this.#registry = typeof scroll?.query === "function" ? scroll : Quill.import?.("parchment"); // of Quill 2, of Quill 1
    const Text = Quill.import?.("blots/text");
    if (typeof Text?.value === "function") Text.value = (/** @type {Text} */ node) => node.data;
    hasten(Quill.import?.("delta"));
  }

  get hasTold() {
    return this.#told !== undefined;
  }

  /**
   * Whether what the editor tells is what it was asked.
   * @param {{ ops: any[] }} delta
   * @param {unknown} source
   */
  hears(delta, source) {
    const isAsked = source === this.#source || (this.isAsking && source === undefined);
    if (isAsked) this.#told = this.read(delta);
    return isAsked;
  }

  /** @param {{ ops: any[] }} delta  of the editor's */
  read(delta) {
    return new Delta(this.#values.encode(delta.ops));
  }

  /** What it shows. */
  contents() {
    return this.read(this.#quill.getContents());
  }

  /** Whether the editor may show what has a name. @param {string} name */
  #isListed(name) {
    const { formats } = this.#quill.options ?? {};
    return !Array.isArray(formats) || formats.includes(name);
  }

  /**
   * What the editor has under a name. Null is nothing; one that says nothing of what it has, has all.
   * @param {string} name
   */
  #find(name) {
    let found = this.#known.get(name);
    if (found !== undefined) return found;
    if (!this.#isListed(name)) found = null;
    else found = this.#registry === undefined ? {} : (this.#registry.query(name) ?? null);
    this.#known.set(name, found);
    return found;
  }

  /** @param {string} name @param {unknown} value */
  #has(name, value) {
    const found = this.#find(name);
    if (found === null) return false;
    const text = typeof value === "string" ? value.replace(/["']/g, "") : value; // as Quill asks
    return !Array.isArray(found.whitelist) || found.whitelist.includes(text);
  }

  /**
   * What is to be shown of operations: no format that the editor doesn't have, a character for such an embed, and a blank for a carriage
   * return, which Quill takes for the end of a line. An embed may have formats of its own, as an image's width.
   * @param {Op[]} ops
   * @returns {Op[]}
   */
  #knownOf(ops) {
    return ops.map((op) => {
      const isText = typeof op.insert === "string";
      const has = (/** @type {string} */ name) => this.#find(name) !== null || (!isText && this.#isListed(name));
      const embed = nameOf(op.insert);
      const insert = embed !== undefined && this.#find(embed) === null ? PLACEHOLDER : isText ? op.insert.replaceAll("\r", " ") : op.insert;
      const names = Object.keys(op.attributes ?? {});
      const kept = names.filter(has);
      if (insert === op.insert && kept.length === names.length) return op;
      const { attributes, ...rest } = op;
      const known = insert === undefined ? rest : { ...rest, insert };
      return /** @type {Op} */ (kept.length === 0 ? known : { ...known, attributes: Object.fromEntries(kept.map((name) => [name, attributes[name]])) });
    });
  }

  /** @param {{ ops: Op[] }} change  in normal form */
  #changeOf(change) {
    const known = new Delta();
    for (const op of this.#knownOf(change.ops)) known.push(op);
    return known.chop();
  }

  /**
   * What the editor is to show of a document.
   * @param {Delta} document
   */
  wantedOf(document) {
    const wanted = new Delta();
    for (const op of this.#knownOf(document.ops)) wanted.push(op);
    const last = wanted.ops.at(-1)?.insert;
    return typeof last === "string" && last.endsWith("\n") ? wanted : wanted.insert("\n");
  }

  /**
   * Asks the editor for something. Gives whether it didn't throw.
   * @param {() => void} ask
   */
  #ask(ask) {
    this.isAsking = true;
    this.#told = undefined;
    try {
      ask();
      return true;
    } catch (error) {
      globalThis.reportError?.(error);
      return false;
    } finally {
      this.isAsking = false;
    }
  }

  /**
   * Changes what is shown. Gives whether the editor did what it was asked, "other" where it did something else, or "failed" where it threw.
   * @param {Delta} change
   * @returns {"done" | "other" | "failed"}
   */
  update(change) {
    const asked = this.#changeOf(change);
    this.#told = undefined;
    if (asked.ops.length === 0) return "done";
    const ops = this.#values.decode(asked.ops);
    if (!this.#ask(() => this.#quill.updateContents(new Delta(ops), this.#source))) return "failed";
    return this.#told !== undefined && areSame(this.#told, asked) ? "done" : "other";
  }

  /**
   * Shows a document anew. Gives whether the editor shows its text.
   * @param {Delta} document
   */
  set(document) {
    const wanted = this.wantedOf(document);
    for (let tries = 0; tries < MOST_TRIES; tries += 1) {
      this.#ask(() => this.#quill.setContents(new Delta(this.#values.decode(wanted.ops)), this.#source));
      if (this.shows(document)) return true;
    }
    return false;
  }

  /** Whether the editor shows a document's text. @param {Delta} document */
  shows(document) {
    return this.#stretches(this.wantedOf(document)) !== undefined;
  }

  /**
   * How the editor shows a document, as far as it has its formats; undefined where its text is another.
   * @param {Delta} document  what it is to show
   */
  #stretches(document) {
    /** @type {Stretch[]} */
    const stretches = [];
    const [one, other] = [new Units(document.ops), new Units(this.contents().ops)];
    while (!one.isAtEnd && !other.isAtEnd) {
      const length = Math.min(one.length, other.length);
      const [asked, shown] = [one.take(length), other.take(length)];
      const isSame = typeof asked.insert === "string" ? asked.insert === shown.insert : nameOf(asked.insert) === nameOf(shown.insert);
      if (!isSame) return undefined;
      const names = Object.keys(asked.attributes ?? {}).filter((name) => this.#find(name) !== null || valueOf(shown.attributes, name) !== undefined);
      const wanted = names.length === 0 ? undefined : Object.fromEntries(names.map((name) => [name, asked.attributes[name]]));
      stretches.push({ length, wanted, shown: shown.attributes });
    }
    return one.isAtEnd && other.isAtEnd ? stretches : undefined;
  }

  /**
   * Has the editor show the formats of a document, whose text it shows. Where it doesn't show them together, as two kinds of a line, they are
   * taken away and set in the order of their names: then the last one stays, in every window. Gives the change that takes those out of the
   * document that the editor has and doesn't show; undefined where it came to show another text.
   * @param {Delta} document
   */
  agree(document) {
    const wanted = this.wantedOf(document);
    let stretches = this.#stretches(wanted);
    if (stretches === undefined || stretches.every(({ wanted, shown }) => areAlike(wanted, shown))) return stretches && new Delta();
    const [cleared, set] = [new Delta(), new Delta()];
    for (const { length, wanted, shown } of stretches) {
      const isAlike = areAlike(wanted, shown);
      const names = isAlike ? [] : Object.keys(wanted ?? {}).sort();
      cleared.retain(length, isAlike ? undefined : removed(Object.keys({ ...shown, ...wanted })));
      set.retain(length, Object.fromEntries(names.map((name) => [name, wanted[name]])));
    }
    for (const change of [cleared.chop(), set.chop()]) if (this.update(change) === "failed") return undefined;
    stretches = this.#stretches(wanted);
    if (stretches === undefined) return undefined;
    const gone = new Delta();
    for (const { length, wanted, shown } of stretches) {
      const names = Object.keys(wanted ?? {}).filter((name) => valueOf(shown, name) === undefined && this.#has(name, wanted[name]));
      gone.retain(length, removed(names));
    }
    return gone.chop();
  }

  /**
   * The change that takes away the formats of the lines around the first place where the editor shows another text than a document's, as an
   * image in a block of code. Without operations where they have none.
   * @param {Delta} document
   */
  plainer(document) {
    const { ops } = this.wantedOf(document);
    const [text, shown] = [textOf(ops), textOf(this.contents().ops)];
    let index = 0;
    while (index < text.length && text[index] === shown[index]) index += 1;
    const [before, after] = [text.slice(0, index).lastIndexOf("\n"), text.indexOf("\n", index)];
    const change = new Delta();
    let at = 0;
    for (const op of ops) {
      const end = at + lengthOf(op);
      const isOf = (/** @type {number} */ place) => place >= at && place < end;
      for (const place of [before, after].filter(isOf)) change.retain(place - change.length()).retain(1, removed(Object.keys(op.attributes ?? {})));
      at = end;
    }
    return change.chop();
  }
}
