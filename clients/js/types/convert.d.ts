/**
 * A document's text as it is, with a text for each embed: an image's is its `alt`.
 * @param {import("./blocks.js").Contents} document
 * @param {import("./blocks.js").ConvertOptions} [options]
 * @returns {string}
 */
export function toText(document: import("./blocks.js").Contents, options?: import("./blocks.js").ConvertOptions | undefined): string;
/**
 * A document that has a text. Each of its lines is a line, whichever end it has, and so is what stands behind the last end.
 * @param {string} text
 * @returns {Delta}
 */
export function fromText(text: string): Delta;
export { toHtml } from "./html.js";
export { fromMarkdown } from "./markdown-in.js";
export { toMarkdown } from "./markdown.js";
import { Delta } from "./delta.js";
