// Quill 2 without a page: the calls that it documents, and the order in which it tells what happens, as its core, its editor and its modules
// `history` and `composition` have it.

import { EventEmitter } from "node:events";
import { Delta } from "../delta.js";

/** Quill's module: each change that was typed can be undone, or each at all, and the others move what is kept. */
class History {
  lastRecorded = 0;
  ignoreChange = false;
  stack = { undo: [], redo: [] };

  constructor(quill, options = {}) {
    this.quill = quill;
    this.options = { delay: 1_000, maxStack: 100, userOnly: false, ...options };
    quill.on("editor-change", (name, change, before, source) => {
      if (name !== "text-change" || this.ignoreChange) return;
      if (!this.options.userOnly || source === "user") this.record(change, before);
      else this.transform(change);
    });
  }

  clear() {
    this.stack = { undo: [], redo: [] };
  }

  cutoff() {
    this.lastRecorded = 0;
  }

  undo() {
    this.change("undo", "redo");
  }

  redo() {
    this.change("redo", "undo");
  }

  change(from, to) {
    const change = this.stack[from].pop();
    if (change === undefined) return;
    this.stack[to].push(change.invert(this.quill.getContents()));
    this.lastRecorded = 0;
    this.ignoreChange = true;
    this.quill.updateContents(change, "user");
    this.ignoreChange = false;
  }

  record(change, before) {
    this.stack.redo = [];
    let undo = change.invert(before);
    const now = Date.now();
    if (this.lastRecorded + this.options.delay > now && this.stack.undo.length > 0) undo = undo.compose(this.stack.undo.pop());
    else this.lastRecorded = now;
    if (undo.ops.length > 0) this.stack.undo.push(undo);
    if (this.stack.undo.length > this.options.maxStack) this.stack.undo.shift();
  }

  transform(change) {
    for (const stack of Object.values(this.stack)) {
      let remote = change;
      for (let index = stack.length - 1; index >= 0; index -= 1) {
        const kept = stack[index];
        stack[index] = remote.transform(kept, true);
        remote = kept.transform(remote, false);
        if (stack[index].ops.length === 0) stack.splice(index, 1);
      }
    }
  }
}

/** The calls of quill-cursors' module that its page documents, for carets of others. */
export class Cursors {
  #cursors = new Map();

  createCursor(id, name, color) {
    if (typeof id !== "string" || typeof name !== "string" || typeof color !== "string") throw new TypeError("no cursor");
    if (!this.#cursors.has(id)) this.#cursors.set(id, { id, name, color, range: null });
    return this.#cursors.get(id);
  }

  moveCursor(id, { index, length }) {
    const cursor = this.#cursors.get(id);
    if (cursor !== undefined) cursor.range = { index, length };
  }

  removeCursor(id) {
    this.#cursors.delete(id);
  }

  cursors() {
    return [...this.#cursors.values()];
  }
}

/**
 * `press` is typing that Quill tells at once, and `type` is typing that is in the page and that Quill tells when it next looks. `compose` is
 * what an input method has put into the page: Quill looks at that when the composition ends, or as it changes the page itself. Then it tells
 * all that it finds, the change too where `tellsAtOnce` holds.
 */
export class Quill extends EventEmitter {
  root = new EventTarget();
  #contents = new Delta([{ insert: "\n" }]);
  #isEnabled = true;
  /** @type {Delta | null} */
  #untold = null;
  /** @type {Delta | null} */
  #composed = null;

  /** @type {{ index: number, length: number } | null} */
  #selection = null;

  constructor({ modules = {}, formats, tellsAtOnce = false } = {}) {
    super();
    Object.assign(this, { options: { formats }, tellsAtOnce });
    this.history = new History(this, modules.history);
    this.modules = { history: this.history, ...(modules.cursors && { cursors: new Cursors() }) };
  }

  getModule(name) {
    return this.modules[name];
  }

  getSelection() {
    this.update();
    return this.#selection;
  }

  setSelection(index, length, source = "api") {
    const before = this.#selection;
    this.#selection = { index, length };
    if (source !== "silent") this.emit("selection-change", this.#selection, before, source);
  }

  /** Its user selects something, or goes elsewhere with null. */
  select(selection) {
    const before = this.#selection;
    this.#selection = selection;
    this.emit("selection-change", selection, before, "user");
  }

  enable(isEnabled = true) {
    this.#isEnabled = isEnabled;
  }

  isEnabled() {
    return this.#isEnabled;
  }

  getContents() {
    return new Delta([...this.#contents.ops]);
  }

  getLength() {
    return this.#contents.length();
  }

  getText() {
    return this.#contents.ops.map(({ insert }) => (typeof insert === "string" ? insert : "")).join("");
  }

  /** Looks at the page, and tells what its user did there. */
  update(source = "user") {
    const untold = this.#untold;
    this.#untold = null;
    if (untold !== null) this.#change(untold, source);
  }

  setContents(delta, source = "api") {
    const change = new Delta([...delta.ops]).delete(this.getLength());
    if (!`${delta.ops.at(-1)?.insert}`.endsWith("\n")) throw new Error("Quill would add a line's end");
    return this.#change(change, source);
  }

  updateContents(delta, source = "api") {
    if (!this.#isEnabled && source === "user") return new Delta();
    this.update(); // as it asks for the selection
    const change = new Delta(delta.ops.map((op) => this.#known(op)));
    const composed = this.#composed;
    this.#composed = null;
    if (composed !== null && this.tellsAtOnce) {
      this.#change(composed.compose(change), "user"); // and the change itself finds nothing to do any more
      return new Delta();
    }
    if (composed !== null) this.#change(composed, "user");
    return this.#change(change, source);
  }

  #known(op) {
    const { formats } = this.options;
    if (formats === undefined || op.attributes === undefined) return { ...op };
    return { ...op, attributes: Object.fromEntries(Object.entries(op.attributes).filter(([name]) => formats.includes(name))) };
  }

  #change(change, source) {
    const before = this.#contents;
    this.#contents = before.compose(change);
    if (!`${this.#contents.ops.at(-1)?.insert}`.endsWith("\n")) this.#contents.insert("\n"); // which Quill never does without
    if (change.ops.length === 0 || source === "silent") return change;
    this.emit("editor-change", "text-change", change, before, source);
    this.emit("text-change", change, before, source);
    return change;
  }

  press(index, text, attributes) {
    this.updateContents(new Delta().retain(index).insert(text, attributes), "user");
  }

  type(index, text) {
    const typed = new Delta().retain(index).insert(text);
    this.#untold = this.#untold === null ? typed : this.#untold.compose(typed);
  }

  /** Ctrl+Z, with the shift key or without. */
  key(key, { shiftKey = false }) {
    if (shiftKey) this.history.redo();
    else this.history.undo();
  }

  compose(index, text) {
    if (this.#composed === null) this.root.dispatchEvent(new Event("compositionstart"));
    const typed = new Delta().retain(index).insert(text);
    this.#composed = this.#composed === null ? typed : this.#composed.compose(typed);
  }

  endComposition() {
    const composed = this.#composed;
    this.#composed = null;
    queueMicrotask(() => composed !== null && this.#change(composed, "user"));
    this.root.dispatchEvent(new Event("compositionend"));
  }
}
