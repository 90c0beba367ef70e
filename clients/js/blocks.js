// A document in lines, and its lines in blocks, by the names that Quill's formats have.

import { isSafe } from "./addresses.js";

const LISTS = ["ordered", "bullet", "checked", "unchecked"];
const MOST_HEADER = 6;

/**
 * @typedef {import("./delta.js").QuillDelta["ops"][number]} Op
 * @typedef {Op[] | { ops: Op[] }} Contents  a document, as `contents` of an open one is
 *
 * @typedef {object} ConvertOptions
 * @property {(name: string, value: any, attributes: Record<string, any>) => string} [embed]  the text for an embed that is no image, `[name]` if it
 *   isn't given
 *
 * @typedef {{ insert: any, attributes: Record<string, any> }} Piece  a text without a line's end, or an embed
 * @typedef {{ pieces: Piece[], attributes: Record<string, any> }} Line
 *
 * @typedef {object} Block  lines of one kind that follow each other
 * @property {"text" | "header" | "list" | "quote" | "code"} kind
 * @property {Line[]} lines
 * @property {number} [level]  of a header, 1 to 6
 * @property {string} [language]  of code, empty where it is none
 */

/** @param {Contents} document @returns {Op[]} */
export const contentsOf = (document) => (Array.isArray(document) ? document : document.ops);

/**
 * @param {Contents} document
 * @returns {Line[]}
 */
function linesOf(document) {
  /** @type {Line[]} */
  const lines = [];
  /** @type {Piece[]} */
  let pieces = [];
  for (const { insert, attributes = {} } of contentsOf(document)) {
    const parts = typeof insert === "string" ? insert.split("\n") : [insert];
    for (const [index, part] of parts.entries()) {
      if (index > 0) lines.push({ pieces: pieces.splice(0), attributes });
      if (part !== "") pieces.push({ insert: part, attributes });
    }
  }
  if (pieces.length > 0) lines.push({ pieces, attributes: {} });
  return lines;
}

/**
 * What kind of block a line belongs to.
 * @param {Line} line
 * @returns {Omit<Block, "lines">}
 */
function kindOf({ attributes: { "code-block": code, header, list, blockquote } }) {
  if (code) return { kind: "code", language: typeof code === "string" && /^[\w+#.-]+$/.test(code) && code !== "plain" ? code : "" };
  if (Number.isInteger(header) && header >= 1 && header <= MOST_HEADER) return { kind: "header", level: header };
  if (LISTS.includes(list)) return { kind: "list" };
  return { kind: blockquote ? "quote" : "text" };
}

/**
 * @param {Contents} document
 * @returns {Block[]}
 */
export function blocksOf(document) {
  /** @type {Block[]} */
  const blocks = [];
  for (const line of linesOf(document)) {
    const block = { ...kindOf(line), lines: [line] };
    const last = blocks.at(-1);
    const isMore = last !== undefined && last.kind === block.kind && last.level === block.level && last.language === block.language;
    if (isMore) last.lines.push(line);
    else blocks.push(block);
  }
  return blocks;
}

/**
 * How deep a line of a list stands, at most so deep.
 * @param {Line} line
 * @param {number} most
 */
export function depthOf({ attributes: { indent } }, most) {
  return Number.isInteger(indent) ? Math.max(0, Math.min(indent, most)) : 0;
}

/**
 * What shows an image, where its address may stand in a page.
 * @param {Piece} piece
 * @returns {string | undefined}
 */
export function imageOf({ insert }) {
  const address = typeof insert === "object" ? insert.image : undefined;
  return typeof address === "string" && isSafe(address, true) ? address : undefined;
}

/**
 * The text that stands for a piece where nothing but text can.
 * @param {Op} op
 * @param {ConvertOptions} [options]
 * @returns {string}
 */
export function textOf({ insert, attributes = {} }, options) {
  if (typeof insert === "string") return insert;
  const [[name, value]] = Object.entries(insert ?? {});
  if (name === "image") return typeof attributes.alt === "string" && attributes.alt !== "" ? attributes.alt : "[image]";
  return options?.embed?.(name, value, attributes) ?? `[${name}]`;
}

/**
 * Goes over the pieces of a line with the marks that stand around them, one within the other in the order that each piece has them in.
 * @template {{ name: string, value: unknown }} Mark
 * @param {Piece[]} pieces
 * @param {(piece: Piece) => Mark[]} marksOf
 * @param {{ open: (mark: Mark) => void, close: (mark: Mark) => void, piece: (piece: Piece) => void }} way
 */
export function nest(pieces, marksOf, way) {
  /** @type {Mark[]} */
  const around = [];
  for (const piece of [...pieces, undefined]) {
    const marks = piece === undefined ? [] : marksOf(piece);
    let same = 0;
    while (same < around.length && around[same].name === marks[same]?.name && around[same].value === marks[same].value) same += 1;
    while (around.length > same) way.close(around.pop());
    for (const mark of marks.slice(same)) {
      around.push(mark);
      way.open(mark);
    }
    if (piece !== undefined) way.piece(piece);
  }
}
