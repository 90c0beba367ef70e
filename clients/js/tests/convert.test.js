// Documents as HTML, Markdown and text, and of Markdown and text, by the rows that the Python client is tested with as well; and drawn ones.

import assert from "node:assert/strict";
import { readFileSync } from "node:fs";
import { createRequire } from "node:module";
import test from "node:test";
import { fromMarkdown, fromText, toHtml, toMarkdown, toText } from "../convert.js";
import { Delta } from "../delta.js";
import { Draw } from "./draw.js";
import { ROOT } from "./program.js";

const { to, from } = JSON.parse(readFileSync(`${ROOT}/clients/conversions.json`, "utf8"));
const CASES = 500;

function markdownIt() {
  try {
    process.env.NODE_PATH = "/usr/share/nodejs"; // where Debian's Node looks by itself
    createRequire(import.meta.url)("node:module")._initPaths();
    return createRequire(import.meta.url)("markdown-it");
  } catch {
    return undefined;
  }
}

const MarkdownIt = markdownIt();
const needsMarkdownIt = { skip: MarkdownIt === undefined && "there is no markdown-it, Debian's node-markdown-it" };
const plain = (delta) => JSON.parse(JSON.stringify(delta.ops));

test("the rows of documents", () => {
  for (const { name, ops, html, markdown, text } of to) {
    assert.equal(toHtml(ops), html, name);
    assert.equal(toMarkdown({ ops }), markdown, name);
    assert.equal(toText(new Delta(ops)), text, name);
  }
});

test("the rows of texts", () => {
  const rows = from.filter(({ text }) => text !== undefined);
  assert.ok(rows.length > 3);
  for (const { name, text, ops } of rows) assert.deepEqual(plain(fromText(text)), ops, name);
});

test("the rows of Markdown, and the Markdown of each document", needsMarkdownIt, () => {
  const rows = from.filter(({ markdown }) => markdown !== undefined);
  for (const { name, markdown, ops, back = ops } of [...rows, ...to]) assert.deepEqual(plain(fromMarkdown(markdown, MarkdownIt)), back, name);
});

test("an embed has the text that a page gives it, which is escaped", () => {
  const ops = [{ insert: { mention: { id: 7 } }, attributes: { bold: true } }, { insert: "\n" }];
  const embed = (name, value, attributes) => `<${name} ${value.id} ${attributes.bold}>`;
  assert.equal(toHtml(ops, { embed }), "<p><strong>&lt;mention 7 true&gt;</strong></p>\n");
  assert.equal(toMarkdown(ops, { embed }), "**\\<mention 7 true>**\n");
  assert.equal(toText(ops, { embed }), "<mention 7 true>\n");
});

const SIGNS = ["*", "_", "`", "~x", "[", "]", "(", ")", "!", "#", "-", "+", ">", "<b>", "&", "amp;", "1.", "\\", ".", "[x] ", "---", "```"];
const PIECES = ["a", "é", "仮", " ", "\u00a0", "\u{1f600}", "\t", ...SIGNS];
const MARKS = [["bold", true], ["italic", true], ["strike", true], ["code", true], ["link", "http://e.org/a_b(c)?x=1&amp;y=*"]];
const ITEMS = [{ list: "bullet" }, { list: "ordered" }, { list: "ordered", indent: 1 }, { list: "checked", indent: 2 }];
const LINES = [{}, { header: 2 }, { blockquote: true }, { "code-block": true }, ...ITEMS];

/** A document of letters that have a meaning in Markdown. */
function drawn(draw) {
  const delta = new Delta();
  for (let lines = 1 + draw.below(4); lines > 0; lines -= 1) {
    for (let pieces = draw.below(5); pieces > 0; pieces -= 1) {
      const marks = Array.from({ length: draw.below(4) }, () => draw.of(MARKS));
      const text = Array.from({ length: 1 + draw.below(5) }, () => draw.of(PIECES)).join("");
      if (draw.below(12) === 0) delta.insert({ image: "/i.png" }, Object.fromEntries(marks.filter(([name]) => name !== "code")));
      else delta.insert(text, Object.fromEntries(marks));
    }
    delta.insert("\n", draw.of(LINES));
  }
  return delta;
}

/** What Markdown keeps of a document: the filled lines, and each character's marks, but those of blanks. */
function kept(ops) {
  const unitsOf = (insert) => (typeof insert === "string" ? [...insert] : [insert]);
  const characters = ops.flatMap(({ insert, attributes = {} }) => unitsOf(insert).map((one) => [one, attributes]));
  const rows = [];
  let row = [];
  for (const [one, attributes] of characters) {
    if (one === "\n") {
      const { indent, ...kind } = attributes;
      const isCode = kind["code-block"] !== undefined;
      const code = row.flatMap(([one]) => [...(one.image ? "[image]" : one)]);
      if (row.length > 0 || kind.list !== undefined || isCode) rows.push([kind, isCode ? code : row]);
      row = [];
    } else {
      const { bold, italic, strike, ...others } = attributes;
      row.push([one, /[\t \u00a0]/.test(one) && !others.code ? others : attributes]);
    }
  }
  return rows;
}

test("drawn documents come back from Markdown", needsMarkdownIt, () => {
  const draw = new Draw(7);
  for (let count = 0; count < CASES; count += 1) {
    const { ops } = drawn(draw);
    const markdown = toMarkdown(ops);
    assert.deepEqual(kept(fromMarkdown(markdown, MarkdownIt).ops), kept(ops), `${JSON.stringify(ops)}\n${markdown}`);
  }
});
