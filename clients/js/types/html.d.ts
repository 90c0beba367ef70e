/**
 * A document as HTML, which has no program in it whatever the document has: texts and values are escaped, and addresses that aren't of the web
 * or of mails are left out.
 * @param {import("./blocks.js").Contents} document
 * @param {ConvertOptions} [options]
 * @returns {string}
 */
export function toHtml(document: import("./blocks.js").Contents, options?: import("./blocks.js").ConvertOptions | undefined): string;
export type Line = import("./blocks.js").Line;
export type Piece = import("./blocks.js").Piece;
export type ConvertOptions = import("./blocks.js").ConvertOptions;
/**
 * whose value is the attributes of its tag
 */
export type Mark = {
    name: string;
    value: string;
    tag: string;
};
