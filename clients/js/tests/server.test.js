// The client against the program.

import assert from "node:assert/strict";
import { readFileSync } from "node:fs";
import test from "node:test";
import { connect } from "../richd.js";
import { Draw } from "./draw.js";
import { until } from "./fake.js";
import { RICHD, ROOT, Store, needsRichd } from "./program.js";
import { proxied } from "./proxy.js";

async function connected(t, address, options) {
  const client = await connect({ ...address, ...options });
  t.after(() => client.close());
  return client;
}

/** The lines of an editor in docs/PROTOCOL.md's conversation, up to the part that is said of another case. */
function conversationOf(name) {
  const page = readFileSync(`${ROOT}/docs/PROTOCOL.md`, "utf8");
  const told = page.slice(page.indexOf("## A conversation"), page.indexOf("Had more than `keep`"));
  return [...told.matchAll(/^ {4}(ann|bob) ([<>]) (.*)$/gm)].filter((line) => line[1] === name).map((line) => [line[2], JSON.parse(line[3])]);
}

test("the conversation of docs/PROTOCOL.md", needsRichd, async (t) => {
  const proxy = await proxied(t, await new Store(t).serve());
  const quiet = { ...proxy.address, patience: Infinity }; // it asks nothing but what is said here
  const [ann, bob] = [await connected(t, quiet, { source: "ann" }), await connected(t, quiet, { source: "bob", isNew: true })];
  const newSession = async (client) => {
    const connecting = new Promise((resolve) => client.addEventListener("connected", resolve, { once: true }));
    proxy.cut(client.source);
    await connecting;
  };

  await ann.create("demo", [{ insert: "Hello world" }]);
  await ann.since("demo", 0);
  await newSession(ann);
  await bob.fetch("demo");
  await bob.edit("demo", [{ insert: "Oh. " }], 1);
  await newSession(bob);
  await ann.edit("demo", [{ retain: 6 }, { retain: 5, attributes: { bold: true } }], 1);
  await ann.since("demo", 1);

  proxy.isDeaf = true;
  const edited = ann.edit("demo", [{ retain: 15 }, { insert: "!" }], 3);
  await until(() => proxy.hasDropped);
  proxy.isDeaf = false;
  proxy.cut("ann");
  assert.deepEqual(await edited, { rev: 4 });

  for await (const { rev } of ann.follow("demo", 3)) {
    if (rev === 4) assert.deepEqual(await ann.undo("demo"), { rev: 5 });
    else break;
  }
  await until(() => proxy.lines.at(-1).includes("unsubscribed"));
  await bob.since("demo", 1);

  for (const name of ["ann", "bob"]) {
    const lines = proxy.lines.filter((line) => line.startsWith(name)).map((line) => [line[4], JSON.parse(line.slice(6))]);
    assert.deepEqual(lines, conversationOf(name));
  }
});

test("over pipes, and a source that finds its number anew", needsRichd, async (t) => {
  const store = new Store(t);
  const pipes = { command: RICHD, args: ["serve", store.path], source: "ann" };
  for (const start of [0, 30]) {
    const client = await connect(pipes);
    if (start === 0) await client.create("d", [{ insert: "ab" }]);
    for (let rev = start + 1; rev <= start + 30; rev += 1) assert.deepEqual(await client.edit("d", [{ insert: "x" }], rev), { rev: rev + 1 });
    await client.close();
  }
  assert.deepEqual(store.dump(), [{ doc: "d", rev: 61, ops: [{ insert: "x".repeat(60) + "ab" }] }]);
});

test("a document is deleted and created again", needsRichd, async (t) => {
  const address = await new Store(t).serve();
  const [ann, bob] = [await connected(t, address, { source: "ann" }), await connected(t, address, { source: "bob" })];
  await ann.create("d", [{ insert: "a" }]);
  const document = await bob.open("d");
  const trouble = new Promise((resolve) => document.addEventListener("trouble", ({ error }) => resolve(error)));
  assert.deepEqual(await ann.delete("d"), { rev: 2 });
  assert.equal((await trouble).name, "Deleted");
  const calls = [ann.fetch("d"), ann.undo("d"), bob.delete("d")];
  await Promise.all(calls.map((call) => assert.rejects(call, { name: "Deleted", code: 40 })));
  const again = await bob.open("d", { create: [{ insert: "n" }] });
  assert.deepEqual([again.revision, again.contents.ops], [3, [{ insert: "n" }]]);
  await assert.rejects(ann.edit("d", [{ insert: "late" }], 1), { name: "TooOld" });
  await assert.rejects(ann.create("d", [{ insert: "a" }]), { name: "Exists" });
});

test("many calls at once, on many documents", needsRichd, async (t) => {
  const store = new Store(t);
  const client = await connected(t, await store.serve(), { source: "ann" });
  const docs = Array.from({ length: 12 }, (_, index) => `d${index}`);
  const calls = docs.flatMap((doc) => [
    client.create(doc, [{ insert: doc }]),
    ...Array.from({ length: 20 }, () => client.edit(doc, [{ insert: "x" }], 1)),
    client.undo(doc),
    client.fetch(doc),
  ]);
  const results = await Promise.all(calls);
  for (const [index, doc] of docs.entries()) {
    const own = results.slice(index * 23, index * 23 + 23);
    assert.deepEqual(own.map(({ rev }) => rev), [...Array.from({ length: 22 }, (_, rev) => rev + 1), 22]);
    assert.deepEqual(own.at(-1).ops, [{ insert: "x".repeat(19) + doc }]);
  }
});

test("two who create the same documents at the same time", needsRichd, async (t) => {
  const address = await new Store(t).serve();
  const clients = [await connected(t, address), await connected(t, address)];
  for (let number = 0; number < 30; number += 1) {
    const open = (client, index) => client.open(`d${number}`, { create: [{ insert: String(index) }] });
    const [one, other] = await Promise.all(clients.map(open));
    assert.deepEqual(one.contents.ops, other.contents.ops);
  }
});

const KILLS = 2;

test("two who type while the server is killed, twice: each character is there once", needsRichd, async (t) => {
  const store = new Store(t);
  const address = await store.serve();
  const clients = [await connected(t, address), await connected(t, address)];
  await clients[0].create("d", [{ insert: "\n" }]);
  const documents = await Promise.all(clients.map((client) => client.open("d")));
  const draw = new Draw(5);
  for (let number = 0; number < 300; number += 1) {
    const character = String.fromCodePoint(0x4e00 + number);
    documents[number % 2].apply([{ retain: draw.below(documents[number % 2].contents.length()) }, { insert: character }].filter((op) => op.retain !== 0));
    await new Promise((resolve) => setTimeout(resolve, 5));
    if (number % 100 === 50 && number < KILLS * 100) {
      await store.kill();
      await store.serve(address.port);
    }
  }
  await Promise.all(documents.map((document) => document.flush()));
  await until(() => documents[0].revision === documents[1].revision);
  await store.kill();
  const [{ ops, rev }] = store.dump();
  for (const document of documents) assert.deepEqual([document.contents.ops, document.revision], [ops, rev]);
  const characters = [...ops.map(({ insert }) => insert).join("")].sort();
  assert.deepEqual(characters, ["\n", ...Array.from({ length: 300 }, (_, number) => String.fromCodePoint(0x4e00 + number))]);
});

for (const [what, shape] of [["which keeps all", []], ["which keeps three revisions", ["--keep", "3"]]]) {
  test(`three who type at random over connections that are cut, on a server ${what}`, needsRichd, async (t) => {
    const store = new Store(t, ...shape);
    const proxy = await proxied(t, await store.serve());
    const clients = [await connected(t, proxy.address), await connected(t, proxy.address), await connected(t, proxy.address)];
    await clients[0].create("d", [{ insert: "The quick brown fox" }]);
    const documents = await Promise.all(clients.map((client) => client.open("d")));
    const draw = new Draw(6);
    for (let round = 0; round < 400; round += 1) {
      const document = draw.of(documents);
      document.apply(draw.typing(document.contents).ops);
      if (draw.below(3) === 0) await new Promise((resolve) => setTimeout(resolve, draw.below(20)));
      if (draw.below(40) === 0) proxy.cut(draw.of(clients).source);
    }
    await Promise.all(documents.map((document) => document.flush()));
    const { rev } = await clients[0].fetch("d");
    await until(() => documents.every((document) => document.revision === rev));
    await store.kill();
    const dumped = store.dump();
    for (const { contents } of documents) assert.deepEqual([{ doc: "d", rev, ops: contents.ops }], dumped);
  });
}
