// The document that types ahead, against a server in the test's hands.

import assert from "node:assert/strict";
import test from "node:test";
import { Delta } from "../delta.js";
import { connect } from "../richd.js";
import { Draw } from "./draw.js";
import { served, until } from "./fake.js";

/** A server with a document, and how to open it, until the test ends. */
async function prepared(t, faults, ops = [{ insert: "Hello\n" }]) {
  const server = await served(faults);
  t.after(() => server.close());
  const open = async () => {
    const client = await connect(server.address);
    t.after(() => client.close());
    return Object.assign(await client.open("d"), { client });
  };
  const creator = await connect({ ...server.address, source: "creator" });
  t.after(() => creator.close());
  await creator.create("d", ops);
  return { server, creator, open, newest: () => server.documents.at("d") };
}

/** What an editor shows that is told of the changes alone. */
function shownBy(document) {
  const shown = { contents: document.contents };
  document.addEventListener("change", ({ delta }) => (shown.contents = shown.contents.compose(delta)));
  shown.type = (ops) => {
    shown.contents = shown.contents.compose({ ops });
    document.apply(ops);
  };
  return shown;
}

const isAt = (document, rev) => document.isSaved && document.revision === rev;

test("what is typed shows at once, and is sent in one edit while another is on its way", async (t) => {
  const { open, newest, server } = await prepared(t);
  const document = await open();
  document.apply([{ insert: "a" }]);
  document.apply([{ retain: 1 }, { insert: "b" }]);
  assert.deepEqual(document.contents.ops, [{ insert: "abHello\n" }]);
  assert.equal(document.isSaved, false);
  await Promise.resolve(); // "ab" is on its way
  document.apply([{ retain: 2 }, { insert: "c" }]);
  document.apply([{ retain: 3 }, { insert: "d" }]);
  assert.equal(await document.flush(), 3);
  assert.deepEqual(newest(), [{ insert: "abcdHello\n" }]);
  assert.deepEqual([2, 3].map((rev) => server.documents.deltaOf("d", rev)), [[{ insert: "ab" }], [{ retain: 2 }, { insert: "cd" }]]);
});

test("two who type at once come to the same, and each is told of the other", async (t) => {
  const { open, newest } = await prepared(t);
  const documents = [await open(), await open()];
  const shown = documents.map(shownBy);
  shown[0].type([{ insert: "left " }]);
  shown[1].type([{ retain: 5 }, { insert: "right", attributes: { bold: true } }]);
  shown[1].type([{ delete: 1 }]);
  await Promise.all(documents.map((document) => document.flush()));
  await until(() => documents.every((document) => isAt(document, 3)));
  for (const { contents } of [...documents, ...shown]) assert.deepEqual(contents.ops, newest());
  assert.deepEqual(newest(), [{ insert: "left ello" }, { insert: "right", attributes: { bold: true } }, { insert: "\n" }]);
});

test("an edit whose reply is lost is taken once, though its news come before the answer", async (t) => {
  const troubles = ["cut", 22, "cut"];
  const spoil = (message, session) => {
    if (message.do !== "edit" || troubles.length === 0) return false;
    const trouble = troubles.shift();
    if (trouble === "cut") session.cut();
    // the edit was taken, the reply is lost for want of memory, and its news come
    else session.reply({ code: 22, error: "NoMemory" }, { doc: "d", news: 2, ops: [{ insert: "x" }] });
    return true;
  };
  const { open, newest, server } = await prepared(t, { spoil });
  const document = await open();
  const shown = shownBy(document);
  shown.type([{ insert: "x" }]);
  assert.equal(await document.flush(), 2);
  assert.deepEqual(newest(), [{ insert: "xHello\n" }]);
  assert.equal(server.documents.newest("d"), 2);
  for (const { contents } of [document, shown]) assert.deepEqual(contents.ops, newest());
});

test("where the past is no longer held, what was typed is moved onto what is fetched", async (t) => {
  const { open, newest, server, creator } = await prepared(t);
  const document = await open();
  const shown = shownBy(document);
  server.sessions.at(-1).cut();
  shown.type([{ retain: 5 }, { insert: " bob" }]);
  await creator.edit("d", [{ retain: 5 }, { insert: "!" }], 1);
  await creator.edit("d", [{ insert: "Oh. " }], 2);
  server.documents.raise("d", 3);
  await document.flush();
  for (const { contents } of [document, shown]) assert.deepEqual(contents.ops, newest());
  assert.ok(newest()[0].insert.includes(" bob"));
  // and of one that has typed nothing
  server.sessions.at(-1).cut();
  await creator.edit("d", [{ insert: "So. " }], 4);
  server.documents.raise("d", 5);
  await until(() => isAt(document, 5));
  for (const { contents } of [document, shown]) assert.deepEqual(contents.ops, newest());
});

const PAGE = "Title\nFirst paragraph, about tea.\nSecond paragraph, about milk.\nThird paragraph, about bread.\nEnd\n";

/** What two did at the same time to a page, the first while the second was away, and the past is no longer held. */
async function awayed(t) {
  const { open, newest, server } = await prepared(t, {}, [{ insert: PAGE }]);
  const document = await open();
  const shown = shownBy(document);
  const rebased = [];
  document.addEventListener("rebased", ({ from, to }) => rebased.push([from, to]));
  server.sessions.at(-1).cut();
  const at = (text) => PAGE.indexOf(text);
  shown.type([{ retain: at("First") }, { retain: 5, attributes: { bold: true } }]);
  shown.type([{ retain: at("milk") }, { insert: "oat " }]);
  shown.type([{ retain: at("Third") + 4 }, { delete: "Third paragraph, about bread.\n".length }]);
  const edits = [
    [{ retain: PAGE.length - 1 }, { insert: "ing" }],
    [{ retain: at("paragraph, about tea"), attributes: { size: 2 } }],
    [{ insert: "A new " }],
    [{ retain: 6 + at("milk.") + 4 }, { insert: ", cold" }],
  ];
  for (const [index, ops] of edits.entries()) server.documents.answer({ do: "edit", doc: "d", n: index + 1, base: index + 1, ops }, "other");
  server.documents.raise("d", 5);
  await document.flush();
  for (const { contents } of [document, shown]) assert.deepEqual(contents.ops, newest());
  assert.deepEqual(rebased, [[1, 5]]);
  return newest();
}

test("what was typed while away keeps its place, its deletions and its formats", async (t) => {
  const merged = await awayed(t);
  assert.equal(merged.map(({ insert }) => insert).join(""), "A new Title\nFirst paragraph, about tea.\nSecond paragraph, about oat milk, cold.\nEnding\n");
  const first = merged.find(({ insert }) => insert === "First");
  assert.deepEqual(first.attributes, { size: 2, bold: true });
});

test("an edit that was taken, but behind what is no longer held, is shown once", async (t) => {
  const spoil = (message, session) => {
    if (message.do === "edit" && session.source !== "creator") session.documents.raise("d", 3);
    return false;
  };
  const { open, newest, server, creator } = await prepared(t, { spoil });
  const document = await open();
  const shown = shownBy(document);
  server.sessions.at(-1).cut();
  shown.type([{ insert: "mine " }]);
  await creator.edit("d", [{ insert: "yours " }], 1); // the other has no connection yet
  await until(() => document.revision === 3);
  for (const { contents } of [document, shown]) assert.deepEqual(contents.ops, newest());
  assert.deepEqual(newest(), [{ insert: "yours mine Hello\n" }]);
});

test("what is refused for good is taken back, and told", async (t) => {
  const isHeavy = (message) => message.do === "edit" && message.ops.some(({ insert }) => insert?.startsWith("heavy"));
  const { open, newest, creator } = await prepared(t, { refuse: (message) => (isHeavy(message) ? { code: 16, error: "TooHeavy" } : undefined) });
  const document = await open();
  const shown = shownBy(document);
  const told = [];
  creator.edit("d", [{ insert: "first" }], 1);
  shown.type([{ insert: "second" }]); // at the same place, and late
  await document.flush();
  document.addEventListener("trouble", ({ error }) => told.push(error.name));
  shown.type([{ insert: "heavy" }]);
  await Promise.resolve(); // it is on its way
  shown.type([{ retain: 5 }, { insert: "er" }, { retain: 5 }, { delete: 1 }]);
  await assert.rejects(document.flush(), { name: "TooHeavy", code: 16 });
  for (const { contents } of [document, shown]) assert.deepEqual(contents.ops, newest());
  assert.deepEqual(told, ["TooHeavy"]);
  shown.type([{ insert: "light " }]);
  await document.flush();
  for (const { contents } of [document, shown]) assert.deepEqual(contents.ops, newest());
});

/** The troubles that a document tells, as the error's name, what is lost, and whether it is final. */
function troublesOf(document) {
  const troubles = [];
  document.addEventListener("trouble", ({ error, delta, isFinal }) => troubles.push([error.name, delta.ops, isFinal]));
  return troubles;
}

test("what can't be sent is refused at once, and isn't shown", async (t) => {
  const { open, newest, server } = await prepared(t, {}, [{ insert: "a\u{1f600}b\n" }]);
  const document = await open();
  const image = { insert: { image: "data:image/png;base64," + "A".repeat(70_000) } };
  const refused = [
    ["LineTooLong", [{ retain: 3 }, image]],
    ["LineTooLong", [{ retain: 1, attributes: { link: "A".repeat(70_000) } }]],
    ["PastEnd", [{ retain: 6 }, { insert: "x" }]],
    ["PastEnd", [{ retain: 3 }, { delete: 3 }]],
    ["CutsPair", [{ retain: 2 }, { insert: "x" }]],
    ["CutsPair", [{ retain: 1 }, { delete: 1 }]],
    ["CutsPair", [{ retain: 2, attributes: { bold: true } }]],
    ["CutsPair", [{ insert: "lone \ud83d half" }]],
    ["BadOps", [{ insert: { image: "a", alt: "b" } }]],
    ["BadOps", [{ retain: 1, attributes: { "line-height": NaN } }]],
    ["BadOps", [{ retain: 1, attributes: { ["n".repeat(65)]: 1 } }]],
    ["BadOps", [{ insert: "x", retain: 1 }]],
    ["BadOps", [{ insert: "x", id: 1 }]],
    ["BadOps", [{}]],
    ["BadOps", ["x"]],
  ];
  const troubles = troublesOf(document);
  for (const [name, ops] of refused) assert.throws(() => document.apply(ops), { name }, JSON.stringify(ops).slice(0, 60));
  assert.deepEqual(troubles.splice(0), refused.map(([name, ops]) => [name, ops, false]));
  for (const ops of [undefined, null, 5, "x", {}, { ops: "x" }]) assert.throws(() => document.apply(ops), { name: "BadOps", code: 3 });
  assert.deepEqual(troubles, Array.from({ length: 6 }, () => ["BadOps", [], false]));
  assert.deepEqual(document.contents.ops, newest());
  assert.ok(document.isSaved);
  // a retain at the end does nothing, so it may reach further; so do attributes that say nothing
  document.apply([{ insert: "x", attributes: { bold: null, italic: undefined } }, { retain: 99 }]);
  await document.flush();
  assert.deepEqual(newest(), [{ insert: "xa\u{1f600}b\n" }]);
  assert.equal(server.documents.newest("d"), 2);
});

test("an image that a line takes alone is sent alone", async (t) => {
  const { open, newest, server } = await prepared(t);
  const document = await open();
  const image = { insert: { image: "A".repeat(60_000) } };
  document.apply([{ retain: 2 }, { insert: "before " }, image, { insert: " after" }]);
  await document.flush();
  assert.deepEqual(newest(), [{ insert: "Hebefore " }, image, { insert: " afterllo\n" }]);
  assert.ok(server.documents.newest("d") <= 4);
});

test("an edit that stays too wide in one part is taken back", async (t) => {
  let sent = 0;
  const refuse = ({ do: kind }) => (kind === "edit" ? ((sent += 1), { code: 17, error: "TooWide" }) : undefined);
  const { open } = await prepared(t, { refuse });
  const document = await open();
  const troubles = troublesOf(document);
  const lost = [{ insert: { image: "A".repeat(60_000) } }];
  document.apply(lost);
  await assert.rejects(document.flush(), { code: 17 });
  assert.deepEqual([sent, troubles], [1, [["TooWide", lost, false]]]);
});

test("a server that says PastEnd each time is asked some times, and the edit is taken back", async (t) => {
  let sent = 0;
  const refuse = ({ do: kind }) => (kind === "edit" ? ((sent += 1), { code: 14, error: "PastEnd" }) : undefined);
  const { open, newest } = await prepared(t, { refuse });
  const document = await open();
  const troubles = troublesOf(document);
  document.apply([{ insert: "x" }]);
  await assert.rejects(document.flush(), { code: 14 });
  assert.deepEqual([sent, troubles], [5, [["PastEnd", [{ insert: "x" }], false]]]);
  assert.deepEqual(document.contents.ops, newest());
});

test("a refusal that the client doesn't know takes back what was typed, and tells it", async (t) => {
  const refuse = ({ do: kind }) => (kind === "edit" ? { code: 60, error: "NotAllowed" } : undefined);
  const { open, newest } = await prepared(t, { refuse });
  const document = await open();
  const troubles = troublesOf(document);
  document.apply([{ insert: "one" }]);
  await Promise.resolve();
  document.apply([{ retain: 3 }, { insert: " two" }]);
  await assert.rejects(document.flush(), { code: 60, name: "NotAllowed" });
  assert.deepEqual(troubles, [["NotAllowed", [{ insert: "one two" }], false]]);
  assert.deepEqual(document.contents.ops, newest());
});

test("a document that may not be followed is closed, whatever the number of the refusal", async (t) => {
  const refuse = ({ do: kind }) => (kind === "subscribe" ? { code: 61, error: "NotAllowed" } : undefined);
  const { open } = await prepared(t, { refuse });
  const document = await open();
  const troubles = troublesOf(document);
  await until(() => document.isClosed);
  assert.deepEqual(troubles, [["NotAllowed", [], true]]);
  assert.equal(document.state, "closed");
});

/** The states that a document tells. */
function statesOf(document) {
  const states = [document.state];
  document.addEventListener("state", ({ state }) => {
    assert.equal(state, document.state);
    assert.notEqual(state, states.at(-1));
    states.push(state);
  });
  return states;
}

test("one state: saved, saving, offline, refused, closed", async (t) => {
  const isHeavy = (message) => message.do === "edit" && message.ops.some(({ insert }) => insert === "heavy");
  const { open, server, creator } = await prepared(t, { refuse: (message) => (isHeavy(message) ? { code: 16, error: "TooHeavy" } : undefined) });
  const document = await open();
  const states = statesOf(document);
  const toldBy = async (act) => {
    const before = states.length;
    await act();
    return states.splice(before);
  };
  assert.deepEqual(states, ["saved"]);
  assert.deepEqual(await toldBy(async () => (document.apply([{ insert: "x" }]), document.flush())), ["saving", "saved"]);
  const cut = async () => {
    server.sessions.at(-1).cut();
    await until(() => document.state === "offline");
    document.apply([{ insert: "y" }]);
    await document.flush();
  };
  assert.deepEqual(await toldBy(cut), ["offline", "saving", "saved"]);
  assert.deepEqual(await toldBy(async () => (document.apply([{ insert: "heavy" }]), document.flush().catch(() => {}))), ["saving", "refused"]);
  assert.deepEqual(await toldBy(async () => (document.apply([{ insert: "z" }]), document.flush())), ["saving", "saved"]);
  assert.deepEqual(await toldBy(async () => assert.throws(() => document.apply([{ retain: 99 }, { insert: "z" }]))), ["refused"]);
  assert.deepEqual(await toldBy(async () => (document.apply([{ insert: "z" }]), document.flush())), ["saving", "saved"]);
  const deleted = async () => (await creator.delete("d"), until(() => document.isClosed));
  assert.deepEqual(await toldBy(deleted), ["closed"]);
  const closed = await creator.open("e", { create: [{ insert: "\n" }] });
  const last = statesOf(closed);
  await creator.close();
  assert.deepEqual(last, ["saved", "closed"]);
});

test("a store that failed is told, and the edit is sent until it is taken", async (t) => {
  let failures = 2;
  const refuse = ({ do: kind }) => (kind === "edit" && failures-- > 0 ? { code: 21, error: "StoreFailed" } : undefined);
  const { open, newest } = await prepared(t, { refuse });
  const document = await open();
  const states = statesOf(document);
  document.apply([{ insert: "x" }]);
  await document.flush();
  assert.deepEqual(states, ["saved", "saving", "storeFailed", "saved"]);
  assert.deepEqual(newest(), [{ insert: "xHello\n" }]);
});

test("whoever reads what is shown, or is told of a change, or typed something, can't change the document by it", async (t) => {
  const { open, newest, creator } = await prepared(t, {}, [{ insert: "Hello", attributes: { bold: true } }, { insert: { image: "p" } }]);
  const document = await open();
  const { contents } = document;
  contents.insert("x").ops.splice(0, 1);
  assert.throws(() => (document.contents.ops[0].insert = "x"), TypeError);
  assert.throws(() => (document.contents.ops[0].attributes.bold = false), TypeError);
  assert.throws(() => (document.contents.ops[1].insert.image = "q"), TypeError);
  const typed = [{ insert: "typed", attributes: { size: 1 } }];
  document.apply(typed);
  typed[0].attributes.size = 2;
  document.addEventListener("change", ({ delta }) => (delta.ops[0].attributes.size = 2));
  await document.flush();
  await creator.edit("d", [{ insert: "told", attributes: { size: 1 } }], 2);
  await until(() => document.revision === 3);
  assert.deepEqual(document.contents.ops, newest());
});

test("a deletion ends a document that is open, and says so", async (t) => {
  const { creator, open } = await prepared(t);
  const document = await open();
  const troubles = troublesOf(document);
  await creator.delete("d");
  document.apply([{ insert: "typed" }]);
  await assert.rejects(document.flush(), { code: 40 });
  await until(() => troubles.at(-1)?.[2]);
  assert.deepEqual(troubles.map(([name]) => name), Array.from(troubles, () => "Deleted"));
  assert.deepEqual(troubles.flatMap(([, ops]) => ops), [{ insert: "typed" }]);
});

test("what is too long for a line, or for the journal, is sent in parts", async (t) => {
  const isWide = (message) => message.do === "edit" && JSON.stringify(message).length > 3_000;
  const { open, newest } = await prepared(t, { refuse: (message) => (isWide(message) ? { code: 17, error: "TooWide" } : undefined) });
  const document = await open();
  const sizes = Array.from({ length: 2_000 }, (_, size) => ({ insert: "x", attributes: { size } }));
  document.apply([{ insert: "\u{1f600}é\n".repeat(10_000) }, ...sizes]);
  await document.flush();
  assert.deepEqual(newest(), document.contents.ops);
});

test("a document is created with contents longer than a message, which show at once and aren't taken back by undo", async (t) => {
  const { open, server } = await prepared(t);
  const { client } = await open();
  const ops = Array.from({ length: 5_000 }, (_, number) => ({ insert: `words ${number}\n`, attributes: { size: number } }));
  const document = await client.open("long", { create: ops });
  assert.deepEqual([document.contents.ops, document.isSaved, document.history.canUndo], [ops, false, false]);
  await document.flush();
  assert.deepEqual(server.documents.at("long"), ops);
  const again = await client.open("long", { create: ops });
  assert.deepEqual(again.contents.ops, ops);
  await assert.rejects(client.open("none", { create: [{ insert: "x", retain: 1 }, ...ops] }), { name: "BadOps" });
});

test("values that aren't flat are kept as JSON in one spelling, or as the page says", async (t) => {
  const { open, newest } = await prepared(t, {}, [{ insert: "a\n" }]);
  const document = await open();
  const shown = shownBy(await open());
  const mention = { id: 7, name: "bob", tags: ["x", { z: null, a: 1.5 }] };
  const ops = [{ insert: { mention } }, { insert: "b", attributes: { "line-height": 1.5, link: "json:x", bold: true } }];
  document.apply(ops);
  await document.flush();
  const flat = [
    { insert: { mention: 'json:{"id":7,"name":"bob","tags":["x",{"a":1.5,"z":null}]}' } },
    { insert: "b", attributes: { "line-height": "json:1.5", link: 'json:"json:x"', bold: true } },
    { insert: "a\n" },
  ];
  assert.deepEqual(newest(), flat);
  const rich = [...ops, { insert: "a\n" }];
  await until(() => shown.contents.ops.length === 3);
  assert.deepEqual([document.contents.ops, shown.contents.ops], [rich, rich]);
  document.history.endStep();
  document.apply([{ retain: 1 }, { retain: 1, attributes: { "line-height": null, link: { b: 1, a: 2 } } }]);
  document.apply([{ retain: 1 }, { retain: 1, attributes: { link: { a: 2, b: 1 } } }]); // which is equal
  assert.equal(document.history.undo(), true);
  await document.flush();
  assert.deepEqual(newest(), flat);
  const foreign = await document.client.open("foreign", { create: [{ insert: "x", attributes: { own: "json:{", other: 'json:{"b":1, "a":2}' } }] });
  assert.deepEqual(foreign.contents.ops[0].attributes, { own: "json:{", other: 'json:{"b":1, "a":2}' });

  const encode = (value, name) => (name === "mention" ? `@${value.id}` : value);
  const decode = (value, name) => (name === "mention" ? { id: Number(String(value).slice(1)) } : value);
  const other = await document.client.open("other", { create: [{ insert: { mention: { id: 7 } } }], encode, decode });
  assert.deepEqual([other.contents.ops, (await document.client.fetch("other")).ops], [[{ insert: { mention: { id: 7 } } }], [{ insert: { mention: "@7" } }]]);
  const failing = await document.client.open("d", { encode: () => JSON.parse("no") });
  assert.throws(() => failing.apply([{ insert: { mention } }]), { name: "BadOps" });
  assert.equal(failing.state, "refused");
});

test("it computes by its own deltas, whatever the page has", async (t) => {
  const { open } = await prepared(t);
  class Other extends Delta {}
  globalThis.Quill = { import: () => Other };
  t.after(() => delete globalThis.Quill);
  assert.equal((await open()).contents.constructor, Delta);
});

test("whoever opens a document first creates it, and the others wait until it is shown", async (t) => {
  let hidden = 2; // so often the server says that it exists, before it shows it
  const refuse = ({ do: kind, doc }) => {
    if (doc === "e" && kind === "create" && hidden > 0) return { code: 7, error: "Exists" };
    if (doc === "e" && kind === "fetch" && hidden > 0) return (hidden -= 1), { code: 6, error: "NoDocument" };
    return undefined;
  };
  const { open } = await prepared(t, { refuse });
  const { client } = await open();
  for (const ops of [[{ insert: "first" }], [{ insert: "second" }]]) {
    assert.deepEqual((await client.open("e", { create: ops })).contents.ops, [{ insert: "first" }]);
  }
  await assert.rejects(client.open("f"), { name: "NoDocument" });
});

test("many documents of one client are told how it stands, and Node warns of none", async (t) => {
  const { creator, server } = await prepared(t);
  const warnings = [];
  const warn = (warning) => warnings.push(String(warning));
  process.on("warning", warn);
  t.after(() => process.off("warning", warn));
  const documents = [];
  for (let number = 0; number < 30; number += 1) documents.push(await creator.open(`d${number}`, { create: [] }));
  const told = documents.map((document) => {
    const states = [];
    document.addEventListener("state", ({ state }) => states.push(state));
    return states;
  });
  documents[0].close();
  for (const session of server.sessions) session.cut();
  await until(() => documents[29].state === "saved" && told[29].length === 2);
  assert.deepEqual(told, [["closed"], ...Array.from({ length: 29 }, () => ["offline", "saved"])]);
  assert.deepEqual(warnings, []);
});

test("a document that is closed is told no more, and says so", async (t) => {
  const { open, creator } = await prepared(t);
  const document = await open();
  document.close();
  await creator.edit("d", [{ insert: "x" }], 1);
  await creator.fetch("d");
  assert.deepEqual(document.contents.ops, [{ insert: "Hello\n" }]);
  assert.throws(() => document.apply([{ insert: "x" }]), { name: "Closed" });
});

test("three who type at random, with cuts and a past that is dropped, come to the same", async (t) => {
  const draw = new Draw(Number(process.env.SEED ?? 4));
  const spoil = (_, session) => draw.below(40) === 0 && (session.cut(), true);
  const { open, newest, server } = await prepared(t, { spoil }, [{ insert: "The quick brown fox" }]);
  const documents = [await open(), await open(), await open()];
  const shown = documents.map(shownBy);
  const pause = (milliseconds) => new Promise((resolve) => setTimeout(resolve, milliseconds));
  for (let round = 0; round < 400; round += 1) {
    const one = draw.of(shown);
    one.type(draw.typing(one.contents).ops);
    if (draw.below(4) === 0) await pause(draw.below(8));
    if (draw.below(60) === 0) server.documents.raise("d", server.documents.newest("d"));
  }
  await Promise.all(documents.map((document) => document.flush()));
  const newestRev = server.documents.newest("d");
  await until(() => documents.every((document) => isAt(document, newestRev)));
  for (const { contents } of [...documents, ...shown]) assert.deepEqual(contents.ops, newest());
});
