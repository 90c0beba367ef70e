// A document as Markdown: CommonMark, with `~~` around what is struck out, and a box before what is to be done.

import { isSafe } from "./addresses.js";
import { blocksOf, depthOf, imageOf, nest, textOf } from "./blocks.js";

const BLANK = "[\\t\\f \\u00a0\\u1680\\u2000-\\u200a\\u2028\\u2029\\u202f\\u205f\\u3000\\ufeff]";
const [BLANK_FIRST, BLANK_LAST, BLANKS] = [new RegExp(`^${BLANK}`), new RegExp(`${BLANK}$`), new RegExp(`(${BLANK}+)`)];
const WORD = /^[\p{L}\p{N}]$/u;
const APART = /^[\s!-/:-@[-`{-~]$/; // a blank, or what is no letter, beside which an end of a mark is one
const EMPHASIS = ["bold", "italic", "strike"]; // within links, and each within those before; an end that has a blank within isn't read

/**
 * @typedef {import("./blocks.js").Line} Line
 * @typedef {import("./blocks.js").Piece} Piece
 * @typedef {import("./blocks.js").ConvertOptions} ConvertOptions
 *
 * @typedef {{ name: string, value: unknown, ends: [string, string] }} Mark
 * @typedef {{ kind: "text" | "whole" | "open" | "close", text: string }} Part  of a line; one that is whole is written as it is
 */

/** @param {string} character */
const reference = (character) => `&#${character.codePointAt(0)};`;

/** A text whose characters Markdown takes for themselves. @param {string} text */
const escaped = (text) => text.replace(/[\\`*_[\]<~]|&(?=#?\w+;)/g, "\\$&").replaceAll("\r", reference("\r"));

/** @param {string} address */
const destination = (address) =>
  address.replace(/[\s<>`\u0000-\u001f\u007f]/g, encodeURIComponent).replace(/[\\()[\]*_]|&(?=#?\w+;)/g, "\\$&");

/** @param {string} code */
function codeSpan(code) {
  const runs = [...code.matchAll(/`+/g)].map(([run]) => run.length);
  let length = 1;
  while (runs.includes(length)) length += 1;
  const fence = "`".repeat(length);
  const isPadded = /^`|`$|^ .*[^ ].* $/.test(code);
  return isPadded ? `${fence} ${code} ${fence}` : `${fence}${code}${fence}`;
}

/**
 * The pieces of a line, parted at their blanks; no blank at an end of a mark has it.
 * @param {Line} line
 */
function segmentsOf({ pieces }) {
  const segments = pieces.flatMap(({ insert, attributes }) => {
    const isText = typeof insert === "string" && !attributes.code;
    return (isText ? insert.split(BLANKS).filter((part) => part !== "") : [insert]).map((part) => ({
      insert: part,
      attributes: { ...attributes },
      isBlank: isText && BLANK_FIRST.test(part),
    }));
  });
  for (const [count, name] of EMPHASIS.entries()) {
    const around = ["link", ...EMPHASIS.slice(0, count + 1)];
    for (const ordered of [segments, [...segments].reverse()]) {
      for (const [at, { isBlank, attributes }] of ordered.entries()) {
        const beside = ordered[at - 1]?.attributes;
        if (isBlank && !around.every((mark) => attributes[mark] === beside?.[mark])) delete attributes[name];
      }
    }
  }
  return segments;
}

/**
 * @param {Piece} piece
 * @param {string} italics
 * @returns {Mark[]}
 */
function marksOf({ attributes: { link, bold, italic, strike } }, italics) {
  /** @type {Mark[]} */
  const marks = [];
  if (typeof link === "string" && isSafe(link)) marks.push({ name: "link", value: link, ends: ["[", `](${destination(link)})`] });
  if (bold) marks.push({ name: "bold", value: true, ends: ["**", "**"] });
  if (italic) marks.push({ name: "italic", value: true, ends: [italics, italics] });
  if (strike) marks.push({ name: "strike", value: true, ends: ["~~", "~~"] });
  return marks;
}

/** @param {Piece} piece @param {ConvertOptions} [options] @returns {Part} */
function partOf(piece, options) {
  const { attributes } = piece;
  const source = imageOf(piece);
  if (source !== undefined) {
    const alt = typeof attributes.alt === "string" ? attributes.alt.replace(/\s/g, " ") : "";
    return { kind: "whole", text: `![${escaped(alt)}](${destination(source)})` };
  }
  const text = textOf(piece, options).replaceAll("\n", " ");
  return attributes.code ? { kind: "whole", text: codeSpan(text) } : { kind: "text", text };
}

/** @param {Line} line @param {ConvertOptions} [options] */
function partsOf(line, options) {
  const segments = segmentsOf(line);
  const italics = segments.some(({ attributes }) => attributes.bold) ? "_" : "*"; // so that no end of one mark is taken for another's
  /** @type {Part[]} */
  const parts = [];
  nest(segments, (piece) => marksOf(piece, italics), {
    open: ({ ends }) => parts.push({ kind: "open", text: ends[0] }),
    close: ({ ends }) => parts.push({ kind: "close", text: ends[1] }),
    piece: (piece) => {
      const [part, last] = [partOf(piece, options), parts.at(-1)];
      if (part.kind === "text" && last?.kind === "text") last.text += part.text;
      else parts.push(part);
    },
  });
  return parts;
}

/**
 * Whether the character beside a mark's end is written by its number, since Markdown wouldn't read the end otherwise.
 * @param {string} beside
 * @param {string} end
 * @param {string} within  the character on the other side of the end
 */
const isNumbered = (beside, end, within) => end !== "[" && !end.startsWith("]") && !APART.test(beside) && (end === "_" || !WORD.test(within));

/** Whether a character is written by its number. @param {string} character */
const isReference = (character) => character.length > 2;

/**
 * The characters of the parts of a line, those by their numbers that have to be. One may stand beside two ends.
 * @param {Part[]} parts
 */
function charactersOf(parts) {
  const characters = parts.map(({ text }) => [...text]);
  for (let isDone = false; !isDone; ) {
    isDone = true;
    for (const [at, { kind, text }] of parts.entries()) {
      const [beside, within, last, first] = kind === "open" ? [at - 1, at + 1, -1, 0] : [at + 1, at - 1, 0, -1];
      if ((kind !== "open" && kind !== "close") || parts[beside]?.kind !== "text") continue;
      const [character, inner] = [characters[beside].at(last), characters[within].at(first)];
      if (isReference(character) || !isNumbered(character, text, isReference(inner) ? ";" : inner)) continue;
      characters[beside].splice(last, 1, reference(character));
      isDone = false;
    }
  }
  return characters;
}

/** The text of a line. @param {Line} line @param {ConvertOptions} [options] */
function inline(line, options) {
  const parts = partsOf(line, options);
  const written = charactersOf(parts).map((characters, at) => {
    if (parts[at].kind !== "text") return parts[at].text;
    const start = isReference(characters[0]) ? characters.shift() : "";
    const end = isReference(characters.at(-1) ?? "") ? characters.pop() : "";
    const text = escaped(characters.join(""));
    const isImage = parts[at + 1]?.text === "[" && text.endsWith("!"); // unless it is written otherwise
    return start + (isImage ? text.replace(/!$/, "\\!") : text) + end;
  });
  return written.join("").replace(BLANK_FIRST, reference).replace(BLANK_LAST, reference);
}

/** The text of a line that begins with it, where some characters begin a block. @param {Line} line @param {ConvertOptions} [options] */
const begun = (line, options) =>
  inline(line, options)
    .replace(/^(?:>|#{1,6}(?=[ \t]|$)|[+-](?=[ \t-]|$))/, "\\$&")
    .replace(/^(\d{1,9})(?=[.)])/, "$1\\");

/**
 * @param {Line[]} lines
 * @param {boolean} isOther  than the list before, which would be one with it
 * @param {ConvertOptions} [options]
 */
function lists(lines, isOther, options) {
  /** @type {{ isOrdered: boolean, count: number, width: number }[]} */
  const open = []; // each within an item of the one before
  /** @type {string[]} */
  const rows = [];
  let isEmpty = true; // the item before
  for (const line of lines) {
    const { list } = line.attributes;
    const isOrdered = list === "ordered";
    const depth = depthOf(line, open.length);
    open.length = Math.min(open.length, depth + 1);
    const isFirst = open[depth]?.isOrdered !== isOrdered;
    if (isFirst) open[depth] = { isOrdered, count: 0, width: 0 };
    open[depth].count += 1;
    const sign = isOrdered ? `${open[depth].count}${isOther ? ")" : "."}` : isOther ? "*" : "-";
    const box = list === "checked" ? "[x] " : list === "unchecked" ? "[ ] " : "";
    const indent = open.slice(0, depth).reduce((sum, { width }) => sum + width, 0);
    open[depth].width = sign.length + 1;
    const text = box === "" ? begun(line, options) : box + inline(line, options);
    if (isFirst && text === "" && !isEmpty) rows.push(""); // an empty item begins no list right behind a text
    isEmpty = text === "";
    rows.push(`${" ".repeat(indent)}${sign} ${text}`.trimEnd());
  }
  return rows.join("\n");
}

/** @param {Line[]} lines @param {string | undefined} language @param {ConvertOptions} [options] */
function fenced(lines, language, options) {
  const rows = lines.map(({ pieces }) => pieces.map((piece) => textOf(piece, options)).join(""));
  const runs = rows.flatMap((row) => row.match(/`{3,}/g) ?? []);
  const fence = "`".repeat(Math.max(2, ...runs.map((run) => run.length)) + 1);
  return [fence + language, ...rows, fence].join("\n");
}

/**
 * A document as Markdown. It has no empty lines, no format that Markdown doesn't have, and no address that isn't of the web or of mails.
 * @param {import("./blocks.js").Contents} document
 * @param {ConvertOptions} [options]
 * @returns {string}
 */
export function toMarkdown(document, options) {
  /** @type {string[]} */
  const written = [];
  let isList = false; // what was written last
  let isOther = false;
  for (const { kind, lines, level, language } of blocksOf(document)) {
    const filled = kind === "list" || kind === "code" ? lines : lines.filter(({ pieces }) => pieces.length > 0);
    if (filled.length === 0) continue;
    isOther = kind === "list" && isList && !isOther;
    isList = kind === "list";
    if (kind === "list") written.push(lists(lines, isOther, options));
    else if (kind === "code") written.push(fenced(lines, language, options));
    else if (kind === "quote") written.push(filled.map((line) => `> ${begun(line, options)}`).join("\n>\n"));
    else if (kind === "text") written.push(...filled.map((line) => begun(line, options)));
    else written.push(...filled.map((line) => `${"#".repeat(level)} ${inline(line, options).replace(/#$/, "\\#")}`));
  }
  return written.map((block) => `${block}\n`).join("\n");
}
