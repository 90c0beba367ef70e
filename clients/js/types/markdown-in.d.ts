/**
 * A document of a text in Markdown, with Quill's formats: CommonMark, `~~` around what is struck out, and a box before what is to be done. HTML
 * in it is text.
 * @param {string} text
 * @param {MarkdownIt} MarkdownIt  the class that the package markdown-it exports, which reads it
 * @returns {Delta}
 */
export function fromMarkdown(text: string, MarkdownIt: MarkdownIt): Delta;
/**
 * of markdown-it's
 */
export type Token = {
    type: string;
    tag: string;
    content: string;
    info: string;
    children: Token[] | null;
    attrGet: (name: string) => string | null;
};
export type Parser = {
    enable: (rule: string) => any;
    parse: (text: string, environment: object) => Token[];
};
/**
 * the class that the package markdown-it exports
 */
export type MarkdownIt = new (preset: "commonmark", options: object) => Parser;
export type Attributes = Record<string, any>;
/**
 * a list and whether its item has its line, or a quote
 */
export type Container = {
    list?: string;
    isBegun?: boolean;
};
import { Delta } from "./delta.js";
