// A text with bold and italic parts, headers and lists in a `contenteditable`, for pages without Quill. It has the methods of Quill that `bind`
// calls, and keeps to its rules: a text ends with a line's end, and a line's end has the line's attributes.

import { Delta } from "../../clients/js/delta.js";
import { difference } from "../../clients/js/difference.js";
import { Carets } from "./carets.js";

const TAGS = { bold: "b", italic: "i" };
const EMBED = "\u25a3"; // stands for what this editor can't show; one unit

/** What a line is shown as, by the attributes of its end. */
const classOf = ({ header, list } = {}) => (header ? `header${header}` : list ? `list ${list}` : "");

const isEmbed = (op) => typeof op.insert !== "string";

function nodeOf(text, attributes) {
  let node = document.createTextNode(text);
  for (const [name, tag] of Object.entries(TAGS)) {
    if (attributes?.[name] !== true) continue;
    const element = document.createElement(tag);
    element.append(node);
    node = element;
  }
  return node;
}

/** A block for each line, with the line's end in it. */
function blocksOf({ ops }) {
  const blocks = [document.createElement("div")];
  for (const op of ops) {
    for (const part of isEmbed(op) ? [EMBED] : op.insert.match(/[^\n]+|\n/g)) {
      blocks.at(-1).append(nodeOf(part, op.attributes));
      if (part !== "\n") continue;
      blocks.at(-1).className = classOf(op.attributes);
      blocks.push(document.createElement("div"));
    }
  }
  return blocks.slice(0, -1);
}

const textOf = ({ ops }) => ops.map((op) => (isEmbed(op) ? EMBED : op.insert)).join("");

export class Editable {
  #element;
  #contents = new Delta([{ insert: "\n" }]);
  #listeners = { "text-change": new Set(), "selection-change": new Set() };
  #carets;
  #typing = {}; // attributes that were set with nothing selected, for what is typed next
  #isComposing = false; // a character of several keys: until it ends the text is the browser's, and `bind` leaves it alone

  constructor(element) {
    this.#element = element;
    element.classList.add("plain");
    element.contentEditable = "true";
    element.spellcheck = false;
    element.addEventListener("beforeinput", (event) => this.#beforeInput(event));
    element.addEventListener("input", () => this.#isComposing || this.#readBack());
    element.addEventListener("compositionstart", () => (this.#isComposing = true));
    element.addEventListener("compositionend", () => this.#afterComposition());
    document.addEventListener("selectionchange", () => this.#tell("selection-change", this.getSelection()));
    this.#carets = new Carets(element, (index, end) => this.#rangeOf(index, end));
    this.#render();
  }

  /** Where the text is, of which `bind` asks when a character is composed. */
  get root() {
    return this.#element;
  }

  enable(isEnabled = true) {
    this.#element.contentEditable = String(isEnabled);
  }

  getContents() {
    return new Delta([...this.#contents.ops]);
  }

  getLength() {
    return this.#contents.length();
  }

  setContents({ ops }, source = "api") {
    const change = new Delta([...ops]).push({ delete: this.getLength() });
    if (!textOf({ ops }).endsWith("\n")) change.insert("\n");
    this.updateContents(change.chop(), source);
  }

  updateContents({ ops }, source = "api") {
    this.#change(new Delta([...ops]), source);
  }

  on(name, listener) {
    this.#listeners[name]?.add(listener);
  }

  off(name, listener) {
    this.#listeners[name]?.delete(listener);
  }

  #tell(name, ...what) {
    for (const listener of this.#listeners[name]) listener(...what);
  }

  /** What shows the carets of others, where `bind` asks for it. */
  getModule(name) {
    return name === "cursors" ? this.#carets : undefined;
  }

  /** What is selected, or null where the caret is elsewhere. */
  getSelection() {
    const selected = this.#selected();
    return selected === undefined ? null : { index: selected[0], length: selected[1] - selected[0] };
  }

  setSelection(index, length = 0) {
    this.#element.focus();
    this.#select([index, index + length]);
  }

  /** Sets an attribute on what is selected, or removes it where all of that has it. */
  toggle(name) {
    const [start, end] = this.#selected() ?? [0, 0];
    if (start === end) {
      const isSet = this.#typing[name] ?? this.#attributesBefore(start)[name] === true;
      this.#typing = { ...this.#typing, [name]: !isSet };
      return;
    }
    const hasAll = this.#contents.slice(start, end).ops.every((op) => op.attributes?.[name] === true);
    this.#change(new Delta().retain(start).retain(end - start, { [name]: hasAll ? null : true }), "user");
  }

  /** Gives the lines of what is selected a header or a list, or none where the first of them has it. */
  toggleLine(name, value) {
    const [start, end] = this.#selected() ?? [0, 0];
    const change = new Delta();
    let isSet;
    for (let at = 0, last = -1; last < end; ) {
      last = this.#lineEnd(Math.max(start, last + 1));
      isSet ??= this.#attributesAt(last)[name] === value;
      change.retain(last - at).retain(1, { header: null, list: null, ...(!isSet && { [name]: value }) });
      at = last + 1;
    }
    this.#change(change, "user");
  }

  #lineEnd(index) {
    return textOf(this.#contents).indexOf("\n", index);
  }

  #beforeInput(event) {
    if (!event.cancelable || this.#isComposing) return; // what the browser does is read back
    event.preventDefault();
    const { inputType } = event;
    if (inputType === "formatBold") return this.toggle("bold");
    if (inputType === "formatItalic") return this.toggle("italic");
    const [range] = event.getTargetRanges();
    if (range === undefined) return;
    if (inputType.startsWith("delete")) this.#replace(range, "");
    else if (inputType === "insertParagraph" || inputType === "insertLineBreak") this.#replace(range, "\n");
    else if (inputType.startsWith("insert")) this.#replace(range, event.data ?? event.dataTransfer?.getData("text/plain") ?? "");
  }

  #replace(range, text) {
    const [start, end] = this.#indexesOf(range);
    const change = new Delta().retain(start);
    if (text !== "\n") change.insert(text, this.#attributesFor(start)).delete(end - start);
    else this.#partLine(change, start, end);
    this.#typing = {};
    this.#change(change, "user", [start + text.length, start + text.length]);
  }

  // Both lines are as the one was, but for a header, which only the first is.
  #partLine(change, start, end) {
    const last = this.#lineEnd(end);
    const { header, list } = this.#attributesAt(last);
    change.insert("\n", { ...(header && { header }), ...(list && { list }) }).delete(end - start);
    if (header) change.retain(last - end).retain(1, { header: null });
  }

  // What is typed at a place has the attributes of what stands before it, and those that were set for it.
  #attributesFor(start) {
    const set = Object.entries({ ...this.#attributesBefore(start), ...this.#typing });
    return Object.fromEntries(set.filter(([name, value]) => name in TAGS && value !== false));
  }

  #attributesBefore(index) {
    return index > 0 ? this.#attributesAt(index - 1) : {};
  }

  #attributesAt(index) {
    return this.#contents.slice(index, index + 1).ops[0]?.attributes ?? {};
  }

  #change(change, source, selected = this.#selected()?.map((index) => change.transformPosition(index, true))) {
    if (change.ops.length === 0) return;
    const before = this.#contents;
    this.#contents = before.compose(change);
    this.#render(selected);
    this.#tell("text-change", change, before, source);
  }

  #render(selected) {
    this.#element.replaceChildren(...blocksOf(this.#contents));
    if (selected !== undefined) this.#select(selected);
    this.#carets.draw();
  }

  #afterComposition() {
    this.#isComposing = false;
    this.#readBack();
  }

  // Takes over what the browser itself did to the text.
  #readBack() {
    const text = this.#element.textContent;
    const shown = { ops: [{ insert: text.endsWith("\n") ? text : text + "\n" }] };
    const typed = new Delta();
    for (const op of difference({ ops: [{ insert: textOf(this.#contents) }] }, shown).ops) {
      typed.push(op.insert === undefined ? op : { ...op, attributes: this.#attributesFor(typed.length()) });
    }
    this.#change(typed, "user", this.#selected());
  }

  // The selection, where it lies in this text.
  #selected() {
    const selection = document.getSelection();
    if (selection.rangeCount === 0 || !this.#element.contains(selection.anchorNode)) return undefined;
    return this.#indexesOf(selection.getRangeAt(0));
  }

  // The end of the last line stays, so nothing lies behind it.
  #indexesOf({ startContainer, startOffset, endContainer, endOffset }) {
    const last = Math.max(this.#element.textContent.length, this.getLength()) - 1;
    const indexOf = (node, offset) => {
      const range = document.createRange();
      range.selectNodeContents(this.#element);
      range.setEnd(node, offset);
      return Math.min(range.toString().length, last);
    };
    return [indexOf(startContainer, startOffset), indexOf(endContainer, endOffset)];
  }

  #select([start, end]) {
    document.getSelection().setBaseAndExtent(...this.#placeOf(start), ...this.#placeOf(end));
  }

  #rangeOf(index, end) {
    const range = document.createRange();
    range.setStart(...this.#placeOf(index));
    range.setEnd(...this.#placeOf(end));
    return range;
  }

  #placeOf(index) {
    const texts = document.createTreeWalker(this.#element, NodeFilter.SHOW_TEXT);
    let left = Math.min(index, this.getLength() - 1);
    while (texts.nextNode()) {
      const { data, length } = texts.currentNode;
      if (left < length || (left === length && data !== "\n")) return [texts.currentNode, left];
      left -= length;
    }
    return [this.#element, 0];
  }
}
