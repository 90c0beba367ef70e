// delta.js against the rows of quill-delta's published behaviour, and against `richd delta` over drawn cases.

import assert from "node:assert/strict";
import { execFile } from "node:child_process";
import { createHash } from "node:crypto";
import { readFileSync } from "node:fs";
import os from "node:os";
import test from "node:test";
import { promisify } from "node:util";
import { Delta, find, remember } from "../delta.js";
import { difference } from "../difference.js";
import { hasten } from "../hastening.js";
import { cutsPair } from "../operations.js";
import { parted } from "../parting.js";
import { Draw } from "./draw.js";
import { RICHD, ROOT, needsRichd } from "./program.js";

const CASES = 2_000;
const SAME_CASES = "07eb1687d7de765b3e6e225be17fc51b114b2776e7e9a9569058d769a71c9543"; // the sum of the drawn cases

/** A delta in normal form, as `richd` reads it. */
function read(text) {
  const value = JSON.parse(text);
  return (value.ops ?? value).reduce((delta, op) => delta.push(op), new Delta());
}

const CALLS = {
  compose: (first, second) => read(first).compose(read(second)),
  apply: (document, delta) => read(document).compose(read(delta)),
  transform: (first, second, priority) => read(first).transform(read(second), priority === "first"),
  invert: (delta, base) => read(delta).invert(read(base)),
  normal: (ops) => read(ops).chop(),
  position: (delta, index, priority) => read(delta).transformPosition(Number(index), priority === "first"),
};

test("the rows of deltas", () => {
  const [rows, answers] = ["stdin", "stdout"].map((name) => readFileSync(`${ROOT}/crates/test_rows/${name}`, "utf8").split("\n"));
  let count = 0;
  for (const [line, row] of rows.entries()) {
    const [call, ...words] = row.split("\t");
    if (!(call in CALLS) || answers[line].startsWith("error")) continue;
    count += 1;
    const result = CALLS[call](...words);
    const wanted = JSON.parse(answers[line]);
    assert.deepEqual(typeof result === "number" ? result : { ops: result.ops }, wanted, row);
  }
  assert.ok(count > 150, `${count} rows`);
});

test("a document that remembers where it was changed is changed, and looked into, as any other", () => {
  const draw = new Draw(5);
  for (let count = 0; count < 200; count += 1) {
    let plain = draw.document();
    let document = remember(new Delta([...plain.ops]));
    for (let changes = 0; changes < 8; changes += 1) {
      const change = draw.change(plain);
      assert.deepEqual(change.invert(document), change.invert(plain));
      assert.equal(cutsPair(change, document), cutsPair(change, plain));
      const place = draw.below(plain.length() + 2);
      assert.deepEqual(find(document.ops, place), find(plain.ops, place));
      [plain, document] = [plain.compose(change), document.compose(change)];
      assert.deepEqual(document, plain);
    }
  }
});

test("a page's deltas that are hastened compose as before", () => {
  class Other {
    constructor(ops = []) {
      this.ops = ops;
    }

    compose(other) {
      return new Other(new Delta(this.ops).compose(new Delta(other.ops)).ops);
    }
  }
  const draw = new Draw(6);
  const cases = Array.from({ length: 300 }, (_, number) => {
    const long = new Delta();
    while (long.ops.length < 70) for (const op of draw.document().ops) long.push(op);
    const first = number % 3 === 0 ? draw.change(long) : long;
    const at = draw.below(long.length());
    const change = number % 2 === 0 ? draw.change(long) : new Delta().retain(at).insert("x", draw.attributes(false));
    return [first, change, new Other(first.ops).compose(change)];
  });
  hasten(Other);
  for (const [first, change, made] of cases) assert.deepEqual(new Other(first.ops).compose(change), made);
});

/** What `richd delta` prints for a case: a composition, or a transformation with the first delta first or not. */
async function asked(call, first, second, isFirst) {
  const words = [first, second].map(({ ops }) => JSON.stringify({ ops }));
  const { stdout } = await promisify(execFile)(RICHD, ["delta", call, ...words, ...(isFirst ? ["--first"] : [])]);
  return JSON.parse(stdout);
}

function drawnCases() {
  const draw = new Draw(1);
  return Array.from({ length: CASES }, (_, number) => {
    const base = draw.document();
    const first = draw.change(base);
    const isCompose = number % 2 === 0;
    const second = draw.change(isCompose ? base.compose(first) : base);
    return { call: isCompose ? "compose" : "transform", first, second, isFirst: !isCompose && draw.below(2) === 0 };
  });
}

test("the drawn cases are those of clients/python/tests/test_delta.py", () => {
  const spelled = ({ ops }) => ops.map(({ insert, retain, delete: deleted, attributes }) => [insert, retain, deleted, attributes]);
  const text = JSON.stringify(drawnCases().map(({ call, first, second, isFirst }) => [call, spelled(first), spelled(second), isFirst]));
  assert.equal(createHash("sha256").update(text).digest("hex"), SAME_CASES);
});

test(`${CASES} drawn cases against richd delta`, needsRichd, async () => {
  const cases = drawnCases();
  const compare = async () => {
    for (let one = cases.pop(); one !== undefined; one = cases.pop()) {
      const { call, first, second, isFirst } = one;
      const { ops } = call === "compose" ? first.compose(second) : first.transform(second, isFirst);
      assert.deepEqual({ ops }, await asked(call, first, second, isFirst), JSON.stringify(one));
    }
  };
  await Promise.all(Array.from({ length: Math.min(2, os.cpus().length) }, compare));
});

test("both orders of two changes come to the same, and an inverse takes a change back", () => {
  const draw = new Draw(2);
  for (let number = 0; number < CASES; number += 1) {
    const base = draw.document();
    const [one, other] = [draw.change(base), draw.change(base)];
    const onFirst = base.compose(one).compose(one.transform(other, true));
    const onSecond = base.compose(other).compose(other.transform(one, false));
    assert.deepEqual(onFirst.ops, onSecond.ops);
    assert.deepEqual(base.compose(one).compose(one.invert(base)).ops, base.ops);
    assert.deepEqual(base.compose(difference(base, onFirst)).ops, onFirst.ops);
  }
});

test("a difference keeps what both have: lines, words, beginnings, attributes beside them", () => {
  const rows = [
    ["one\ntwo\n", "two\none\n", [{ delete: 4 }, { retain: 4 }, { insert: "one\n" }]],
    ["the quick fox", "a quick red fox", [{ insert: "a" }, { delete: 3 }, { retain: 6 }, { insert: " red" }]],
    ["hell", "hello", [{ retain: 4 }, { insert: "o" }]],
    ["a\u{1f600}b", "a\u{1f601}b", [{ retain: 1 }, { insert: "\u{1f601}" }, { delete: 2 }]],
    ["\u6771\u4eac\u90fd", "\u6771\u4eac\u5e02", [{ retain: 2 }, { insert: "\u5e02" }, { delete: 1 }]],
    ["", "x", [{ insert: "x" }]],
    ["x", "", [{ delete: 1 }]],
  ];
  for (const [from, to, ops] of rows) assert.deepEqual(difference({ ops: [{ insert: from }] }, { ops: [{ insert: to }] }).ops, ops, from);
  const old = [{ insert: "one two", attributes: { bold: true, size: 1 } }, { insert: { image: "p" } }, { insert: "\n" }];
  const young = [{ insert: "one ", attributes: { size: 2 } }, { insert: "two", attributes: { bold: true, size: 1 } }, { insert: { image: "q" } }, { insert: "\n" }];
  const wanted = [{ retain: 4, attributes: { bold: null, size: 2 } }, { retain: 3 }, { insert: { image: "q" } }, { delete: 1 }];
  assert.deepEqual(difference({ ops: old }, { ops: young }).ops, wanted);
});

test("a difference of long texts comes soon, whatever they have in common", () => {
  const text = "The quick brown fox, it jumps.\n".repeat(3_000);
  const lines = Array.from({ length: 3_000 }, (_, index) => `line ${(index * 7_919) % 3_000}\n`);
  for (const [from, to] of [[text, [...text].reverse().join("")], [lines.join(""), lines.reverse().join("")]]) {
    const change = difference({ ops: [{ insert: from }] }, { ops: [{ insert: to }] });
    assert.deepEqual(new Delta([{ insert: from }]).compose(change).ops, [{ insert: to }]);
  }
});

test("each part of an edit does something, though the next operation is long", () => {
  const image = { insert: { image: "A".repeat(100) } };
  const edit = new Delta([{ retain: 5 }, image, { retain: 3 }, { insert: "x", attributes: { link: "B".repeat(100) } }, { delete: 1 }]);
  const parts = [];
  for (let rest = edit; rest.ops.length > 0; ) {
    let first;
    [first, rest] = parted(rest, 64);
    parts.push(first.ops);
  }
  assert.deepEqual(parts, [[{ retain: 5 }, image], [{ retain: 9 }, edit.ops[3]], [{ retain: 10 }, { delete: 1 }]]);
});

test("an edit in parts does the same", () => {
  const draw = new Draw(3);
  for (let number = 0; number < CASES; number += 1) {
    const base = draw.document();
    let rest = draw.change(base);
    const whole = base.compose(rest);
    let contents = base;
    for (let parts = 0; rest.ops.length > 0; parts += 1) {
      let first;
      [first, rest] = parted(rest, 40 + draw.below(60));
      contents = contents.compose(first);
      assert.ok(parts < 100);
    }
    assert.deepEqual(contents.ops, whole.ops);
  }
});

test("names that every object has are data like others", async (t) => {
  const names = ["constructor", "__proto__", "toString", "hasOwnProperty", "valueOf"];
  const named = (value) => Object.fromEntries(names.map((name) => [name, value]));
  const plain = new Delta([{ insert: "abc" }]);
  const all = new Delta([{ insert: "abc", attributes: named(1) }]);
  const set = new Delta([{ retain: 3, attributes: named(1) }]);
  const shown = (delta) => JSON.stringify(delta.ops);
  assert.equal(shown(plain.compose(set)), shown(all));
  assert.equal(shown(all.compose(set.invert(plain))), shown(plain));
  assert.equal(shown(all.compose(new Delta([{ retain: 3, attributes: named(2) }]).invert(all))), shown(all));
  assert.equal(shown(difference(plain, all)), shown(set));
  assert.equal(shown(difference(all, plain)), shown(new Delta([{ retain: 3, attributes: named(null) }])));
  assert.equal(shown(new Delta([{ retain: 3, attributes: { bold: true } }]).transform(set, true)), shown(set));
  assert.equal(shown(new Delta().insert("a").insert("b", named(1))), shown(new Delta([{ insert: "a" }, { insert: "b", attributes: named(1) }])));
  assert.deepEqual(Object.keys(set.invert(plain).ops[0].attributes), names);
});
