// A document as HTML.

import { isSafe } from "./addresses.js";
import { blocksOf, depthOf, imageOf, nest, textOf } from "./blocks.js";

const ENTITIES = { "&": "&amp;", "<": "&lt;", ">": "&gt;", '"': "&quot;", "'": "&#39;" };
const TAGS = { bold: "strong", italic: "em", underline: "u", strike: "s" };
const COLOR = /^(?:[a-z]+|#[0-9a-f]{3,8}|rgba?\([\d., %]+\))$/i;
const SIDES = ["center", "right", "justify"];

/**
 * @typedef {import("./blocks.js").Line} Line
 * @typedef {import("./blocks.js").Piece} Piece
 * @typedef {import("./blocks.js").ConvertOptions} ConvertOptions
 * @typedef {{ name: string, value: string, tag: string }} Mark  whose value is the attributes of its tag
 */

/** @param {string} text */
const escaped = (text) => text.replace(/[&<>"']/g, (character) => ENTITIES[/** @type {"&"} */ (character)]);

/** A text whose blanks a browser shows all. @param {string} text */
const shown = (text) => escaped(text).replace(/ (?= )/g, "&nbsp;");

/** @param {string} name @param {unknown} value */
const attribute = (name, value) => ` ${name}="${escaped(String(value))}"`;

/**
 * @param {Piece} piece
 * @returns {Mark[]}
 */
function marksOf({ attributes }) {
  const { link, script, color, background, code } = attributes;
  /** @type {Mark[]} */
  const marks = [];
  const mark = (/** @type {string} */ name, /** @type {string} */ tag, value = "") => marks.push({ name, value, tag });
  if (typeof link === "string" && isSafe(link)) mark("link", "a", attribute("href", link));
  for (const [name, tag] of Object.entries(TAGS)) if (attributes[name]) mark(name, tag);
  if (script === "sub" || script === "super") mark("script", script === "sub" ? "sub" : "sup");
  const colors = Object.entries({ color, "background-color": background }).filter(([, value]) => typeof value === "string" && COLOR.test(value));
  if (colors.length > 0) mark("color", "span", attribute("style", colors.map((pair) => pair.join(": ")).join("; ")));
  if (code) mark("code", "code");
  return marks;
}

/** @param {Piece} piece @param {ConvertOptions} [options] */
function pieceOf(piece, options) {
  const source = imageOf(piece);
  if (source === undefined) return shown(textOf(piece, options));
  const sizes = ["alt", "width", "height"].filter((name) => ["string", "number"].includes(typeof piece.attributes[name]));
  return `<img${attribute("src", source)}${sizes.map((name) => attribute(name, piece.attributes[name])).join("")}>`;
}

/** @param {Line} line @param {ConvertOptions} [options] */
function inline({ pieces }, options) {
  let html = "";
  nest(pieces, marksOf, {
    open: ({ tag, value }) => (html += `<${tag}${value}>`),
    close: ({ tag }) => (html += `</${tag}>`),
    piece: (piece) => (html += pieceOf(piece, options)),
  });
  return html;
}

/** @param {string} tag @param {Line} line @param {ConvertOptions} [options] */
function element(tag, line, options) {
  const { align, direction } = line.attributes;
  const side = SIDES.includes(align) ? attribute("style", `text-align: ${align}`) : "";
  return `<${tag}${direction === "rtl" ? attribute("dir", "rtl") : ""}${side}>${inline(line, options) || "<br>"}</${tag}>`;
}

/**
 * Lists stand within the item that they are deeper than.
 * @param {Line[]} lines
 * @param {ConvertOptions} [options]
 */
function lists(lines, options) {
  let html = "";
  /** @type {string[]} */
  const open = []; // the tag of each list, the one within the other
  const close = () => (html += `</li></${open.pop()}>`);
  for (const line of lines) {
    const { list } = line.attributes;
    const tag = list === "ordered" ? "ol" : "ul";
    const depth = depthOf(line, open.length);
    while (open.length > depth + 1) close();
    if (open.length > depth && open.at(-1) !== tag) close();
    if (open.length > depth) html += "</li>";
    else html += `<${tag}>`;
    if (open.length === depth) open.push(tag);
    const box = list === "checked" ? '<input type="checkbox" disabled checked> ' : list === "unchecked" ? '<input type="checkbox" disabled> ' : "";
    html += `<li>${box}${inline(line, options)}`;
  }
  while (open.length > 0) close();
  return html;
}

/** @param {import("./blocks.js").Block} block @param {ConvertOptions} [options] */
function blockOf({ kind, lines, level, language }, options) {
  if (kind === "list") return lists(lines, options);
  if (kind === "quote") return `<blockquote>${lines.map((line) => element("p", line, options)).join("")}</blockquote>`;
  if (kind === "code") {
    const text = lines.map(({ pieces }) => `${pieces.map((piece) => escaped(textOf(piece, options))).join("")}\n`).join("");
    return `<pre><code${language ? attribute("class", `language-${language}`) : ""}>${text}</code></pre>`;
  }
  return lines.map((line) => element(kind === "header" ? `h${level}` : "p", line, options)).join("\n");
}

/**
 * A document as HTML, which has no program in it whatever the document has: texts and values are escaped, and addresses that aren't of the web
 * or of mails are left out.
 * @param {import("./blocks.js").Contents} document
 * @param {ConvertOptions} [options]
 * @returns {string}
 */
export function toHtml(document, options) {
  return blocksOf(document)
    .map((block) => `${blockOf(block, options)}\n`)
    .join("");
}
