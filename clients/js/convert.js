// A document as HTML, as Markdown and as plain text, and a document of Markdown and of plain text.

import { contentsOf, textOf } from "./blocks.js";
import { Delta } from "./delta.js";

export { toHtml } from "./html.js";
export { fromMarkdown } from "./markdown-in.js";
export { toMarkdown } from "./markdown.js";

/**
 * A document's text as it is, with a text for each embed: an image's is its `alt`.
 * @param {import("./blocks.js").Contents} document
 * @param {import("./blocks.js").ConvertOptions} [options]
 * @returns {string}
 */
export function toText(document, options) {
  return contentsOf(document)
    .map((op) => textOf(op, options))
    .join("");
}

/**
 * A document that has a text. Each of its lines is a line, whichever end it has, and so is what stands behind the last end.
 * @param {string} text
 * @returns {Delta}
 */
export function fromText(text) {
  const lines = text.replace(/\r\n?/g, "\n");
  return new Delta().insert(lines.endsWith("\n") ? lines : `${lines}\n`);
}
