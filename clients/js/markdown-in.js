// A document of Markdown, which markdown-it reads.

import { isSafe } from "./addresses.js";
import { Delta } from "./delta.js";

const MARKS = { strong_open: "bold", em_open: "italic", s_open: "strike" };
const BOX = /^\[([ xX])\](?: |$)/;

/**
 * @typedef {object} Token  of markdown-it's
 * @property {string} type
 * @property {string} tag
 * @property {string} content
 * @property {string} info
 * @property {Token[] | null} children
 * @property {(name: string) => string | null} attrGet
 *
 * @typedef {{ enable: (rule: string) => any, parse: (text: string, environment: object) => Token[] }} Parser
 * @typedef {new (preset: "commonmark", options: object) => Parser} MarkdownIt  the class that the package markdown-it exports
 *
 * @typedef {Record<string, any>} Attributes
 * @typedef {{ list?: string, isBegun?: boolean }} Container  a list and whether its item has its line, or a quote
 */

/** @param {Token[]} tokens @returns {string} */
function textOf(tokens) {
  return tokens.map(({ type, content, children }) => (type.endsWith("break") ? " " : children ? textOf(children) : content)).join("");
}

/** Makes a document of tokens. */
class Reader {
  delta = new Delta();
  /** @type {Container[]} */
  #containers = [];

  /** @param {Token[]} tokens */
  read(tokens) {
    let header = 0; // in which a text stands
    for (const token of tokens) {
      const { type, content } = token;
      if (type === "blockquote_open") this.#containers.push({});
      else if (type === "bullet_list_open") this.#beginList("bullet");
      else if (type === "ordered_list_open") this.#beginList("ordered");
      else if (/^(?:blockquote|bullet_list|ordered_list)_close$/.test(type)) this.#containers.pop();
      else if (type === "list_item_open") this.#containers.at(-1).isBegun = false;
      else if (type === "list_item_close") this.#beginItem();
      else if (type === "heading_open") header = Number(token.tag.slice(1));
      else if (type === "heading_close") header = 0;
      else if (type === "inline") this.#line(token, header);
      else if (type === "hr") this.#line({ ...token, children: [{ ...token, type: "text", content: "---" }] }, 0);
      else if (type === "fence" || type === "code_block") this.#code(content, token.info.trim().split(/\s/)[0]);
    }
    return this.delta.ops.length > 0 ? this.delta : this.delta.insert("\n");
  }

  // Gives an item that has nothing before this its line.
  #beginItem() {
    if (this.#containers.at(-1)?.isBegun === false) this.#end(this.#lineOf());
  }

  /** @param {string} list */
  #beginList(list) {
    this.#beginItem();
    this.#containers.push({ list });
  }

  /** @param {Attributes} attributes */
  #end(attributes) {
    this.delta.insert("\n", attributes);
  }

  // The attributes of the next line, by what it stands in. Of an item the first line alone is one of the list.
  #lineOf() {
    const [lists, container] = [this.#containers.filter(({ list }) => list !== undefined), this.#containers.at(-1)];
    const indent = lists.length - (container?.isBegun === false ? 1 : 0);
    const isItem = container?.isBegun === false;
    for (const list of lists) list.isBegun = true;
    if (isItem) return { list: container.list, ...(indent > 0 && { indent }) };
    if (container !== undefined && container.list === undefined) return { blockquote: true };
    return indent > 0 ? { indent } : {};
  }

  /** @param {Token} token @param {number} header */
  #line({ content, children }, header) {
    let attributes = /** @type {Attributes} */ (this.#lineOf());
    if (header > 0) attributes = { header };
    const [, box] = (attributes.list !== undefined && BOX.exec(content)) || [];
    const [first] = children;
    if (box !== undefined && first?.type === "text" && BOX.test(first.content)) {
      attributes.list = box === " " ? "unchecked" : "checked";
      children = [{ ...first, content: first.content.replace(BOX, "") }, ...children.slice(1)];
    }
    this.#inline(children, attributes);
    this.#end(attributes);
  }

  /** @param {Token[]} tokens @param {Attributes} line */
  #inline(tokens, line) {
    /** @type {Attributes[]} */
    const around = [];
    for (const token of tokens) {
      const attributes = Object.assign({}, ...around);
      if (token.type.endsWith("_open")) around.push(markOf(token));
      else if (token.type.endsWith("_close")) around.pop();
      else if (token.type === "code_inline") this.delta.insert(token.content, { ...attributes, code: true });
      else if (token.type === "image") this.#image(token, attributes);
      else if (token.type === "softbreak") this.delta.insert(" ", attributes);
      else if (token.type !== "hardbreak") this.delta.insert(token.content, attributes);
      else if (line.list !== undefined || line.header !== undefined) this.delta.insert(" ", attributes);
      else this.#end(line);
    }
  }

  /** @param {Token} token @param {Attributes} attributes */
  #image(token, attributes) {
    const [source, alt] = [token.attrGet("src") ?? "", textOf(token.children ?? [])];
    if (isSafe(source, true)) this.delta.insert({ image: source }, alt === "" ? attributes : { ...attributes, alt });
    else this.delta.insert(alt === "" ? "[image]" : alt, attributes);
  }

  /** @param {string} text @param {string} language */
  #code(text, language) {
    this.#lineOf();
    for (const line of text.replace(/\n$/, "").split("\n")) this.delta.insert(line).insert("\n", { "code-block": language || true });
  }
}

/** @param {Token} token @returns {Attributes} */
function markOf(token) {
  if (token.type !== "link_open") return { [MARKS[/** @type {keyof MARKS} */ (token.type)]]: true };
  const link = token.attrGet("href") ?? "";
  return isSafe(link) ? { link } : {};
}

/**
 * A document of a text in Markdown, with Quill's formats: CommonMark, `~~` around what is struck out, and a box before what is to be done. HTML
 * in it is text.
 * @param {string} text
 * @param {MarkdownIt} MarkdownIt  the class that the package markdown-it exports, which reads it
 * @returns {Delta}
 */
export function fromMarkdown(text, MarkdownIt) {
  const parser = new MarkdownIt("commonmark", { html: false });
  parser.enable("strikethrough");
  return new Reader().read(parser.parse(text, {}));
}
