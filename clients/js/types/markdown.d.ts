/**
 * A document as Markdown. It has no empty lines, no format that Markdown doesn't have, and no address that isn't of the web or of mails.
 * @param {import("./blocks.js").Contents} document
 * @param {ConvertOptions} [options]
 * @returns {string}
 */
export function toMarkdown(document: import("./blocks.js").Contents, options?: import("./blocks.js").ConvertOptions | undefined): string;
export type Line = import("./blocks.js").Line;
export type Piece = import("./blocks.js").Piece;
export type ConvertOptions = import("./blocks.js").ConvertOptions;
export type Mark = {
    name: string;
    value: unknown;
    ends: [string, string];
};
/**
 * of a line; one that is whole is written as it is
 */
export type Part = {
    kind: "text" | "whole" | "open" | "close";
    text: string;
};
