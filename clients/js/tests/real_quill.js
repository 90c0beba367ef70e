// Quill 1.3 itself in jsdom, one page for each editor: Debian's packages bibledit-cloud-data and node-jsdom.

import { existsSync, readFileSync } from "node:fs";
import { Module, createRequire } from "node:module";
import { Cursors } from "./quill_stub.js";

const FILE = "/usr/share/bibledit-cloud/quill/quill.js";

function found() {
  try {
    process.env.NODE_PATH = "/usr/share/nodejs"; // where Debian's Node looks by itself
    /** @type {any} */ (Module)._initPaths();
    const { JSDOM } = createRequire(import.meta.url)("/usr/share/nodejs/jsdom");
    return existsSync(FILE) ? { JSDOM, missing: false } : { missing: "there is no Quill, Debian's bibledit-cloud-data" };
  } catch {
    return { missing: "there is no jsdom, Debian's node-jsdom" };
  }
}

const { JSDOM, missing } = found();

/** What a test of it is given as its options. */
export const needsRealQuill = { skip: missing };

// What jsdom has otherwise than a browser.
function complete(window) {
  window.document.execCommand = () => {};
  window.Range.prototype.getBoundingClientRect = () => ({ top: 0, bottom: 0, left: 0, right: 0, width: 0, height: 0 });
  const { addEventListener } = window.EventTarget.prototype;
  window.EventTarget.prototype.addEventListener = function (name, listener, options) {
    const { signal, ...others } = typeof options === "object" && options !== null ? options : { capture: options };
    if (signal?.aborted) return;
    addEventListener.call(this, name, listener, others);
    signal?.addEventListener("abort", () => this.removeEventListener(name, listener)); // which is Node's
  };
}

/** A Quill with the calls of the stub by which a test types: `press`, `type`, `compose`, `endComposition` and `select`. */
export class Quill {
  constructor({ modules = {}, formats } = {}) {
    const { window } = new JSDOM('<!doctype html><div id="editor"></div>', { runScripts: "outside-only", url: "http://127.0.0.1/" });
    complete(window);
    window.eval(readFileSync(FILE, "utf8"));
    window.Quill.register("modules/cursors", Cursors);
    for (const name of ["formats/image", "formats/link"]) window.Quill.import(name).sanitize = (url) => url; // jsdom looks for seconds at a long URL
    const quill = new window.Quill("#editor", { modules: { toolbar: false, ...modules }, ...(formats && { formats }) });
    quill.root.tabIndex = 0; // so that jsdom lets it have the focus
    return Object.assign(quill, {
      window,
      press: (index, text, attributes) => quill.updateContents({ ops: [...(index > 0 ? [{ retain: index }] : []), { insert: text, attributes }] }, "user"),
      type: (index, text) => put(quill, index, text),
      compose(index, text) {
        if (!quill.isComposed) quill.root.dispatchEvent(new window.Event("compositionstart"));
        quill.isComposed = true;
        put(quill, index, text);
      },
      endComposition() {
        quill.isComposed = false;
        quill.root.dispatchEvent(new window.Event("compositionend"));
      },
      select: (range) => (range === null ? quill.blur() : quill.setSelection(range.index, range.length, "user")),
      key(key, modifiers) {
        const event = new window.KeyboardEvent("keydown", { key, ...modifiers, bubbles: true, cancelable: true });
        Object.defineProperty(event, "which", { value: key.toUpperCase().charCodeAt(0) });
        quill.root.dispatchEvent(event);
      },
    });
  }
}

/** Puts a text into the page, as a browser does; Quill finds it there. */
function put(quill, index, text) {
  const [leaf, offset] = quill.getLeaf(index);
  if (leaf.domNode.nodeType === 3) leaf.domNode.insertData(offset, text);
  else leaf.domNode.parentNode.insertBefore(quill.window.document.createTextNode(text), leaf.domNode);
}
