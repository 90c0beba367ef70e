// A client of a gateway: names that are lent, and what a gateway alone says.

import assert from "node:assert/strict";
import { once } from "node:events";
import test from "node:test";
import { Client, connect as connectPlain } from "../richd.js";
import { connect } from "../offline.js";
import { Browser } from "./browser.js";
import { served, until } from "./fake.js";
import { needsWebSockets, WebSocket, WebSocketServer } from "./websockets.js";

const textOf = ({ ops }) => ops.map(({ insert }) => insert).join("");
const heard = (target, name) => new Promise((resolve) => target.addEventListener(name, resolve, { once: true }));
const count = (messages, holds) => messages.filter(holds).length;
const isProbe = ({ base }) => base === 2 ** 53 - 1;
const isLease = (message) => message.do === "lease";

/** Lends names of a pool, each as it was made up, and knows the next number of one that is fresh. */
function pool(lent = {}) {
  const names = new Map();
  return (doc, token) => {
    const key = `${doc} ${token}`;
    if (!names.has(key)) names.set(key, { lease: `g${names.size}`, epoch: 1, n: undefined });
    return { ...names.get(key), ...lent[token] };
  };
}

/** A gateway with a document, and how a client and a page come to it, until the test ends. */
async function prepared(t, faults = {}) {
  const lent = {}; // by token, what is lent otherwise than by the pool
  const server = await served({ lend: pool(lent), ...faults });
  t.after(() => server.close());
  const person = async (source, options) => {
    const client = await connectPlain({ ...server.address, source, ...options });
    t.after(() => client.close());
    return client;
  };
  const creator = await person("creator");
  await creator.create("d", [{ insert: "Hello\n" }]);
  server.messages.length = 0;
  const browser = new Browser();
  const load = async (tab) => {
    const page = browser.page(tab);
    const client = await connect({ ...server.address, signal: page.signal }, page);
    t.after(() => page.goes());
    return { page, client, open: () => client.open("d") };
  };
  return { server, creator, person, browser, load, lent, newest: () => server.documents.at("d") };
}

test("a number that the gateway tells isn't looked for", async (t) => {
  const { server, person, lent, newest } = await prepared(t);
  lent.ann = { n: 1 };
  const ann = await person("ann");
  const document = await ann.open("d");
  for (const letter of "abc") {
    document.apply([{ insert: letter }]);
    await document.flush();
  }
  assert.equal(textOf({ ops: newest() }), "cbaHello\n");
  assert.equal(count(server.messages, isProbe), 0);
  assert.equal(count(server.messages, isLease), 1);
  assert.deepEqual(server.messages.filter((message) => message.do === "edit").map(({ n }) => n), [1, 2, 3]);
});

test("a number that the gateway doesn't know is looked for, and so is the right one where it tells a wrong one", async (t) => {
  for (const told of [undefined, 1, 7]) {
    const { server, creator, lent, newest } = await prepared(t);
    await creator.edit("d", [{ insert: "a" }], 1);
    await creator.edit("d", [{ insert: "b" }], 2);
    server.sessions.at(-1).cut();
    await until(() => creator.state === "connected");
    lent.creator = { n: told };
    const again = await connectPlain({ ...server.address, source: "creator" });
    await again.edit("d", [{ insert: "c" }], 3);
    assert.ok(count(server.messages, isProbe) > 0);
    assert.equal(textOf({ ops: newest() }), "cbaHello\n");
    await again.edit("d", [{ insert: "d" }], 4);
    assert.deepEqual(server.messages.filter((message) => message.do === "edit" && !isProbe(message)).at(-1).n, 5);
    await again.close();
  }
});

test("the lease is asked for in each session, before its first command, and not for who reads", async (t) => {
  const { server, person, newest } = await prepared(t);
  const ann = await person("ann");
  await ann.fetch("d");
  assert.equal(count(server.messages, isLease), 0);
  await ann.edit("d", [{ insert: "a" }], 1);
  await ann.edit("d", [{ insert: "b" }], 2);
  assert.equal(count(server.messages, isLease), 1);
  server.sessions.at(-1).cut();
  await heard(ann, "connected");
  await ann.edit("d", [{ insert: "c" }], 3);
  assert.equal(count(server.messages, isLease), 2);
  assert.equal(textOf({ ops: newest() }), "cbaHello\n");
});

for (const isTaken of [true, false]) {
  for (const change of [{ epoch: 2 }, { lease: "other" }, { lease: "other", n: 1 }]) {
    test(`an edit whose reply was lost is in doubt under another lease, ${JSON.stringify(change)}; it ${isTaken ? "was" : "wasn't"} taken`, async (t) => {
      let isLost = true;
      const isA = (message) => isLost && message.ops?.[0]?.insert === "a";
      const { server, person, lent, newest } = await prepared(t, {
        refuse: (message) => (isA(message) && !isTaken ? {} : undefined),
        spoil: (message, session) => isA(message) && (session.cut(), true),
      });
      const ann = await person("ann");
      ann.addEventListener("cut", () => {
        isLost = false;
        Object.assign((lent.ann ??= {}), change);
      });
      const document = await ann.open("d");
      const shown = { contents: document.contents };
      document.addEventListener("change", ({ delta }) => (shown.contents = shown.contents.compose(delta)));
      const doubts = [];
      document.addEventListener("doubt", ({ delta, revision }) => doubts.push([delta.ops, revision]));
      for (const ops of [[{ insert: "a" }], [{ retain: 1 }, { insert: "b" }]]) {
        shown.contents = shown.contents.compose({ ops });
        document.apply(ops);
        await Promise.resolve();
      }
      await document.flush();
      await until(() => document.revision === server.documents.newest("d"));
      assert.deepEqual(doubts, [[[{ insert: "a" }], 1]]);
      assert.equal(textOf({ ops: newest() }).split("a").length, isTaken ? 2 : 1);
      assert.equal(textOf({ ops: newest() }).split("b").length, 2);
      for (const { contents } of [document, shown]) assert.deepEqual(contents.ops, newest());
      assert.equal(count(server.messages, (message) => message.ops?.[0]?.insert === "a"), 1);
      assert.equal(document.state, "saved");
    });
  }
}

test("of commands that overlap those are in doubt that were sent, and the others go under the new lease", async (t) => {
  let isLost = true;
  const { server, person, lent, newest } = await prepared(t, { spoil: (message) => isLost && message.do === "edit" && !isProbe(message) });
  const ann = await person("ann");
  const edits = Array.from({ length: 20 }, (_, index) => ann.edit("d", [{ insert: String.fromCharCode(97 + index) }], 1).then(() => "taken", ({ name }) => name));
  await until(() => count(server.messages, (message) => message.do === "edit" && !isProbe(message)) === 16);
  isLost = false;
  lent.ann = { lease: "other", epoch: 1 };
  server.sessions.at(-1).cut();
  assert.deepEqual(await Promise.all(edits), [...Array(16).fill("InDoubt"), ...Array(4).fill("taken")]);
  const text = textOf({ ops: newest() }).replace("Hello\n", "");
  assert.equal([...text].sort().join(""), "abcdefghijklmnopqrst");
});

test("under the same lease what had no answer is sent again, and taken once", async (t) => {
  let lost = 2;
  const spoil = (message, session) => message.ops?.[0]?.insert === "a" && lost > 0 && ((lost -= 1), session.cut(), true);
  const { server, person, newest } = await prepared(t, { spoil });
  const ann = await person("ann");
  const document = await ann.open("d");
  document.addEventListener("doubt", () => assert.fail("nothing is in doubt"));
  document.apply([{ insert: "a" }]);
  await document.flush();
  assert.equal(textOf({ ops: newest() }), "aHello\n");
  assert.equal(count(server.messages, isLease), 3);
});

test("a document that is nowhere is created without a lease, which is asked for before what follows", async (t) => {
  let isThere = false;
  const lend = (doc) => (doc === "d" || isThere ? { lease: "g0", epoch: 1 } : { code: 6, error: "NoDocument", lease: "g0" });
  const spoil = (message) => message.do === "create" && ((isThere = true), false);
  const { server, person } = await prepared(t, { lend, spoil });
  isThere = false;
  const ann = await person("ann");
  await assert.rejects(ann.edit("new", [{ insert: "a" }], 1), { name: "NoDocument" });
  const [{ rev }, edited] = await Promise.all([ann.create("new", [{ insert: "\n" }]), ann.edit("new", [{ insert: "a" }], 1)]);
  assert.deepEqual([rev, edited.rev], [1, 2]);
  const kinds = server.messages.filter(({ doc }) => doc === "new").map(({ do: kind, n }) => [kind, n]);
  assert.deepEqual(kinds, [["lease", undefined], ["lease", undefined], ["create", 1], ["lease", undefined], ["edit", 2]]);
});

test("a creation without a lease whose reply is lost is sent again", async (t) => {
  let isThere = false;
  const lend = (doc) => (doc === "d" || isThere ? { lease: "g0", epoch: 1, n: isThere ? 2 : 1 } : { code: 6, error: "NoDocument", lease: "g0" });
  const spoil = (message, session) => message.do === "create" && message.doc === "new" && !isThere && ((isThere = true), session.cut(), true);
  const { person, server } = await prepared(t, { lend, spoil });
  const ann = await person("ann");
  assert.deepEqual(await ann.create("new", [{ insert: "\n" }]), { rev: 1 });
  await ann.edit("new", [{ insert: "a" }], 1);
  assert.equal(textOf({ ops: server.documents.at("new") }), "a\n");
});

test("who has another's name doesn't take the other's creation for his own", async (t) => {
  for (const n of [2, undefined]) {
    const { person, lent, newest } = await prepared(t);
    lent.bob = { lease: "g0", epoch: 2, n }; // the creator's
    const bob = await person("bob");
    await assert.rejects(bob.create("d", [{ insert: "Bob's\n" }]), { name: "Exists" });
    const document = await bob.open("d", { create: [{ insert: "Bob's\n" }] });
    document.apply([{ insert: "b" }]);
    await document.flush();
    assert.equal(textOf({ ops: newest() }), "bHello\n");
  }
});

test("a refusal of the lease is that of the command, and of one that was sent before a doubt", async (t) => {
  let refused;
  const lend = (doc, token) => (token === "ann" && refused) || { lease: `of-${token}`, epoch: 1 };
  const spoil = (message, session) => message.ops?.[0]?.insert === "lost" && (session.cut(), true);
  const { person, server, newest } = await prepared(t, { lend, spoil });
  const ann = await person("ann");
  for (refused of [{ code: 60, error: "NotAllowed" }, { code: 11, error: "TooManySources" }]) {
    await assert.rejects(ann.edit("d", [{ insert: "a" }], 1), { name: refused.error });
  }
  refused = undefined;
  ann.addEventListener("cut", () => (refused = { code: 60, error: "NotAllowed" }));
  await assert.rejects(ann.edit("d", [{ insert: "lost" }], 1), { name: "InDoubt" });
  refused = undefined;
  await ann.edit("d", [{ insert: "b" }], 2);
  assert.equal(textOf({ ops: newest() }), "blostHello\n");
  assert.equal(count(server.messages, (message) => message.ops?.[0]?.insert === "lost"), 1);
});

test("a lease or a command that can't be taken now is asked for again", async (t) => {
  const refusals = { lease: 2, edit: 2 };
  const refuse = (message) => (refusals[message.do] > 0 && !isProbe(message) ? ((refusals[message.do] -= 1), { code: 22, error: "NoMemory" }) : undefined);
  const { person, newest } = await prepared(t);
  const { server, person: other } = await prepared(t, { refuse });
  await (await person("ann")).edit("d", [{ insert: "a" }], 1);
  const ann = await other("ann");
  const document = await ann.open("d");
  document.addEventListener("trouble", () => assert.fail("nothing is refused"));
  document.apply([{ insert: "a" }]);
  await document.flush();
  assert.equal(textOf({ ops: server.documents.at("d") }), textOf({ ops: newest() }));
  assert.deepEqual(refusals, { lease: 0, edit: 0 });
});

test("what its user may not do is refused, and its text is told", async (t) => {
  const refuse = ({ do: kind, ops }) => (kind === "edit" && ops.length > 0 ? { code: 60, error: "NotAllowed" } : undefined);
  const { person, newest } = await prepared(t, { refuse });
  const document = await (await person("ann")).open("d");
  document.apply([{ insert: "a" }]);
  await Promise.resolve();
  document.apply([{ retain: 1 }, { insert: "b" }]);
  const { error, delta, isFinal } = await heard(document, "trouble");
  assert.deepEqual([error.code, error.name, delta.ops, isFinal], [60, "NotAllowed", [{ insert: "ab" }], false]);
  assert.equal(document.state, "refused");
  assert.deepEqual(document.contents.ops, newest());
});

test("an edit that a page kept goes on under its lease, and is in doubt under another one", async (t) => {
  for (const epoch of [1, 2]) {
    let isLost = true;
    const isA = (message) => isLost && message.ops?.[0]?.insert === "a";
    const { server, load, lent, newest, browser } = await prepared(t, { refuse: (message) => (isA(message) ? {} : undefined), spoil: isA });
    const before = await load();
    const document = await before.open();
    document.apply([{ insert: "a" }]);
    await until(() => count(server.messages, (message) => message.ops?.[0]?.insert === "a") === 1);
    document.apply([{ retain: 1 }, { insert: "b" }]);
    await until(() => document.isKept);
    const { lease, number } = browser.kept()[`${before.client.source} d`];
    assert.deepEqual([lease.epoch, number], [1, 1]);
    before.page.goes();
    isLost = false;
    lent[before.client.source] = { epoch, n: 1 };

    const after = await load(before.page.tab);
    const again = await after.open();
    const doubts = [];
    again.addEventListener("doubt", ({ delta }) => doubts.push(delta.ops));
    await again.flush();
    await until(() => again.revision === server.documents.newest("d"));
    assert.deepEqual(doubts, epoch === 1 ? [] : [[{ insert: "a" }]]);
    assert.equal(textOf({ ops: newest() }), epoch === 1 ? "abHello\n" : "bHello\n");
    assert.deepEqual(again.contents.ops, newest());
  }
});

test("what another page left is sent under its lease, or told as in doubt", async (t) => {
  for (const epoch of [1, 2]) {
    let isLost = true;
    const isA = (message) => isLost && message.ops?.[0]?.insert === "a";
    const { server, load, lent, newest } = await prepared(t, { refuse: (message) => (isA(message) ? {} : undefined), spoil: isA });
    const [left, right] = [await load(), await load()];
    const document = await right.open();
    document.apply([{ insert: "a" }]);
    await until(() => count(server.messages, (message) => message.ops?.[0]?.insert === "a") === 1);
    await until(() => document.isKept);
    for (const { page } of [left, right]) page.goes();
    isLost = false;
    lent[right.client.source] = { epoch };
    const after = await load(left.page.tab);
    if (epoch === 1) await until(() => textOf({ ops: newest() }) === "aHello\n");
    else assert.deepEqual(await heard(after.client, "left").then(({ delta, error }) => [delta.ops, error.name]), [[{ insert: "a" }], "InDoubt"]);
  }
});

test("a server without a gateway is asked for no lease", async (t) => {
  const { server, person } = await prepared(t, { lend: undefined });
  const document = await (await person("ann")).open("d");
  document.presence.set({ index: 1, length: 2 });
  document.apply([{ insert: "a" }]);
  await document.flush();
  await new Promise((resolve) => setTimeout(resolve, 250));
  assert.equal(count(server.messages, ({ do: kind }) => kind === "lease" || kind === "presence"), 0);
  assert.deepEqual(document.presence.others, []);
});

/** A gateway over WebSockets, which closes each as it is told to: as it is subscribed to, or `at` another message. */
async function closing(t, codes, at = "subscribe") {
  const server = new WebSocketServer({ port: 0, host: "127.0.0.1" });
  await once(server, "listening");
  t.after(() => {
    for (const socket of server.clients) socket.terminate();
    server.close();
  });
  let sessions = 0;
  const edits = [];
  server.on("connection", (socket) => {
    const code = codes[sessions];
    sessions += 1;
    if (code === 4503) return socket.close(4503, "full");
    const reply = (line) => socket.send(Buffer.from(JSON.stringify(line) + "\n"));
    socket.on("message", (line) => {
      const { do: kind, ops, n } = JSON.parse(line);
      if (kind === "edit") edits.push([ops, n]);
      if (kind === at && code !== undefined) return socket.close(code, "why");
      if (kind === "hello") reply({ gateway: 1, ok: "hello" });
      if (kind === "fetch") reply({ doc: "d", ok: "doc", ops: [{ insert: "\n" }], rev: 1 });
      if (kind === "subscribe") reply({ doc: "d", ok: "subscribed", rev: 1 });
      if (kind === "lease") reply({ doc: "d", epoch: 1, lease: "g0", n: 1, ok: "lease" });
      if (kind === "edit") reply({ doc: "d", n, ok: edits.length > 1 ? "again" : "taken", rev: 2 });
    });
  });
  const client = await connectPlain({ url: `ws://127.0.0.1:${server.address().port}/`, WebSocket, source: "ann" });
  t.after(() => client.close());
  return { client, sessions: () => sessions, edits };
}

test("what had no answer as the gateway closed by 1012 is sent again, with its number", needsWebSockets, async (t) => {
  const { client, sessions, edits } = await closing(t, [1012, undefined], "edit");
  const document = await client.open("d");
  document.apply([{ insert: "a" }]);
  assert.equal(await document.flush(), 2);
  assert.deepEqual(edits, [[[{ insert: "a" }], 1], [[{ insert: "a" }], 1]]);
  assert.equal(sessions(), 2);
});

test("a gateway that ends, or whose store was cut, or whose user has other rights: it connects again", needsWebSockets, async (t) => {
  const { client, sessions } = await closing(t, [1012, 4403, 1006 - 6]);
  const document = await client.open("d");
  await until(() => sessions() === 4);
  await heard(client, "connected");
  assert.deepEqual([client.state, document.isClosed], ["connected", false]);
});

test("a function that gives the url is asked each time, and what it fails by ends nothing", async (t) => {
  const asked = [];
  class Refusing {
    constructor(url) {
      asked.push(url);
      queueMicrotask(() => this.onclose({ code: 1006 }));
    }
  }
  const urls = ["ws://a/?token=1", new TypeError("no network"), Promise.reject(new RangeError("none")), Promise.resolve("ws://a/?token=2")];
  urls[2].catch(() => {});
  const url = () => {
    const next = urls.shift() ?? "ws://a/?token=3";
    if (next instanceof Error) throw next;
    return next;
  };
  const client = new Client({ url, WebSocket: Refusing, source: "ann" });
  t.after(() => client.close());
  await until(() => asked.length === 3);
  assert.deepEqual([asked, client.state], [["ws://a/?token=1", "ws://a/?token=2", "ws://a/?token=3"], "offline"]);
});

test("a gateway that is full is tried again, and the state says so", needsWebSockets, async (t) => {
  const { client, sessions } = await closing(t, [1012, 4503, 4503]);
  const states = [];
  client.addEventListener("state", ({ state }) => states.push(state));
  const document = await client.open("d");
  document.apply([{ insert: "a" }]);
  await until(() => sessions() === 4);
  await until(() => client.state === "connected");
  assert.deepEqual(states, ["offline", "full", "connected"]);
  await document.flush();
});

test("where another client comes with the same source it ends, and what wasn't sent is told", needsWebSockets, async (t) => {
  const { client, sessions } = await closing(t, [4409]);
  const document = await client.open("d");
  const troubles = [];
  document.addEventListener("trouble", (event) => troubles.push(event));
  document.apply([{ insert: "a" }]);
  await until(() => client.state === "closed");
  await new Promise((resolve) => setTimeout(resolve, 300));
  assert.deepEqual(troubles.map(({ error, delta, isFinal }) => [error.name, delta.ops, isFinal]), [["Replaced", [{ insert: "a" }], true]]);
  assert.equal(sessions(), 1);
  assert.equal(document.state, "closed");
  await assert.rejects(client.fetch("d"), { name: "Replaced" });
});
