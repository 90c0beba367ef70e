// Documents that outlive their page, in a browser and against a server in the test's hands.

import assert from "node:assert/strict";
import test from "node:test";
import { Delta } from "../delta.js";
import { connect as connectPlain } from "../richd.js";
import { connect } from "../offline.js";
import { lock, takeSource } from "../sources.js";
import { Browser } from "./browser.js";
import { Draw } from "./draw.js";
import { served, until } from "./fake.js";
import { proxied } from "./proxy.js";

/** A server with a document, a browser, and how its pages open that, until the test ends. */
async function prepared(t, faults, ops = [{ insert: "Hello\n" }]) {
  const server = await served(faults);
  t.after(() => server.close());
  const creator = await connectPlain({ ...server.address, source: "creator" });
  t.after(() => creator.close());
  await creator.create("d", ops);
  const browser = new Browser();
  const load = async (tab, options) => {
    const page = browser.page(tab);
    const client = await connect({ ...server.address, signal: page.signal, ...options }, page);
    t.after(() => page.goes());
    return { page, client, open: () => client.open("d") };
  };
  return { server, browser, creator, load, newest: () => server.documents.at("d") };
}

const textOf = ({ ops }) => ops.map(({ insert }) => insert).join("");
const heard = (target, name) => new Promise((resolve) => target.addEventListener(name, resolve, { once: true }));

for (const isTaken of [true, false]) {
  test(`an edit that was sent before a reload is taken once; it ${isTaken ? "was" : "wasn't"} taken before`, async (t) => {
    let sent = 0;
    const isLost = (message) => message.do === "edit" && message.ops[0]?.insert === "a" && (sent += 1) === 1;
    const faults = isTaken
      ? { spoil: (message, session) => isLost(message) && (session.cut(), true) }
      : { refuse: (message) => (isLost(message) ? { do: "nothing" } : undefined), spoil: (message) => sent === 1 && message.ops?.[0]?.insert === "a" };
    const { load, newest, server, creator } = await prepared(t, faults);
    const before = await load();
    const document = await before.open();
    document.apply([{ insert: "a" }]);
    await until(() => sent === 1);
    document.apply([{ retain: 1 }, { insert: "b" }]);
    await until(() => document.isKept);
    assert.equal(document.isSaved, false);
    before.page.goes();
    await creator.edit("d", [{ insert: "others " }], 1);

    const after = await load(before.page.tab);
    assert.equal(after.client.source, before.client.source);
    const again = await after.open();
    assert.equal(textOf(again.contents), "abHello\n");
    await again.flush();
    await until(() => again.revision === server.documents.newest("d"));
    assert.equal(textOf({ ops: newest() }).split("a").length, 2);
    assert.equal(textOf({ ops: newest() }).split("b").length, 2);
    assert.deepEqual(again.contents.ops, newest());
    assert.equal(server.documents.newest("d"), 4);
  });
}

const LONG = Array.from({ length: 3_000 }, (_, line) => ({ insert: `line ${line}\n`, ...(line % 2 > 0 && { attributes: { bold: true } }) }));

for (const [how, isTaken, isSameTab] of [["was taken", true, true], ["wasn't taken", false, true], ["was taken, and another tab comes", true, false]]) {
  test(`a long creation whose page goes before it is answered is ended by the next page; it ${how}`, async (t) => {
    let before;
    const isOwn = ({ do: call, doc }) => call === "create" && doc === "long" && !before.isGone;
    const goes = (session) => {
      before.isGone = true;
      before.page.goes();
      session.cut();
      return true;
    };
    const refuse = (message) => (!isTaken && isOwn(message) ? { do: "nothing" } : undefined);
    const spoil = (message, session) => isOwn(message) && goes(session);
    const { load, server, creator } = await prepared(t, { refuse, spoil });
    const other = await load();
    before = await load();
    before.client.open("long", { create: LONG }).catch(() => {});
    await until(() => before.isGone);
    other.page.goes();
    if (isTaken) await creator.edit("long", [{ insert: "others " }], 1);

    const after = await load((isSameTab ? before : other).page.tab);
    const wanted = `${isTaken ? "others " : ""}${textOf({ ops: LONG })}`;
    if (isSameTab) await (await after.client.open("long")).flush();
    await until(() => server.documents.newest("long") > 0 && textOf({ ops: server.documents.at("long") }) === wanted);
  });
}

test("what was typed without a server is shown after a reload, and sent once there is one", async (t) => {
  let isAway = false;
  const { load, newest, server, creator } = await prepared(t, { spoil: (_, session) => isAway && session.source !== "creator" && (session.cut(), true) });
  const before = await load();
  const document = await before.open();
  isAway = true;
  document.apply([{ retain: 5 }, { insert: " world" }]);
  assert.equal(document.isKept, false);
  assert.ok(before.page.asks);
  await until(() => document.isKept);
  assert.equal(before.page.asks, false);
  assert.equal(document.isSaved, false);
  before.page.goes();
  await creator.edit("d", [{ insert: "Oh. " }], 1);

  const after = await load(before.page.tab);
  const again = await after.open();
  assert.equal(textOf(again.contents), "Hello world\n");
  again.apply([{ retain: 11 }, { insert: "!" }]);
  isAway = false;
  await again.flush();
  await until(() => again.revision === server.documents.newest("d"));
  assert.equal(textOf({ ops: newest() }), "Oh. Hello world!\n");
  assert.deepEqual(again.contents.ops, newest());
});

test("what isn't kept is opened once there is a server, however long that takes", async (t) => {
  const { load, server } = await prepared(t);
  const proxy = await proxied(t, { host: "127.0.0.1", port: 1 });
  const { open } = await load(undefined, { ...proxy.address, timeout: 3_000 });
  let isOpen = false;
  const opening = open().then((document) => ((isOpen = true), document));
  await new Promise((resolve) => setTimeout(resolve, 3_500));
  assert.equal(isOpen, false);
  proxy.upstream = server.address;
  assert.equal(textOf((await opening).contents), "Hello\n");
});

test("an edit leaves once it is written with its number, and one write is made at a time", async (t) => {
  const edits = [];
  const { load, browser } = await prepared(t, { spoil: (message) => (message.base < 2 ** 52 && edits.push(message.n), false) });
  const { open, client } = await load();
  const document = await open();
  await until(() => browser.writes > 0);
  let free;
  browser.beforeWrite = () => new Promise((resolve) => (free = resolve));
  document.apply([{ insert: "a" }]);
  await until(() => free !== undefined);
  document.apply([{ retain: 1 }, { insert: "b" }]);
  for (let writes = 0; edits.length === 0; writes += 1) {
    const kept = browser.kept()[`${client.source} d`];
    assert.equal(kept.number, undefined);
    await new Promise((resolve) => setTimeout(resolve, 20));
    assert.deepEqual(edits, []);
    assert.ok(writes < 5);
    const write = free;
    free = undefined;
    write();
    await until(() => free !== undefined || edits.length > 0);
  }
  assert.deepEqual(edits, [1]);
  assert.deepEqual(browser.kept()[`${client.source} d`].number, 1);
  browser.beforeWrite = async () => {};
  free();
  await document.flush();
  assert.equal(browser.mostAtOnce, 1);
  await until(() => browser.kept()[`${client.source} d`].sent === null);
  assert.deepEqual(browser.kept()[`${client.source} d base`], document.contents.ops);
});

test("where a write fails it is told and tried again, and nothing is sent meanwhile", async (t) => {
  let edits = 0;
  const { load, browser, newest } = await prepared(t, { spoil: (message) => (message.base === 1 && (edits += 1), false) });
  const { open, page, client } = await load();
  const document = await open();
  await until(() => browser.writes > 0);
  const errors = [];
  document.addEventListener("unkept", ({ error }) => errors.push(error.message));
  browser.faults = ["full", "full still"].map((message) => new Error(message));
  document.apply([{ insert: "a" }]);
  await until(() => errors.length === 1);
  document.apply([{ retain: 1 }, { insert: "b" }]);
  assert.equal(document.isKept, false);
  assert.equal(client.isKept, false);
  assert.ok(page.asks);
  assert.equal(edits, 0);
  await until(() => errors.length === 2);
  assert.equal(edits, 0);
  await document.flush();
  assert.deepEqual(errors, ["full", "full still"]);
  assert.equal(textOf({ ops: newest() }), "abHello\n");
  assert.ok(document.isKept && !page.asks);
});

test("an edit that was sent under a lease that is lost is in doubt: it is told, and not sent again", async (t) => {
  for (const isTaken of [true, false]) {
    let epoch = 1;
    let isLost = true;
    const isA = (message) => isLost && message.ops?.[0]?.insert === "a";
    const lend = (doc, token) => ({ lease: token, epoch: token === "creator" ? 1 : epoch });
    const { load, newest, server } = await prepared(t, { refuse: (message) => (isA(message) && !isTaken ? {} : undefined), spoil: isA, lend });
    const before = await load();
    const document = await before.open();
    document.apply([{ insert: "a" }]);
    await until(() => server.messages.some(isA)); // it was sent
    document.apply([{ retain: 1 }, { insert: "b" }]);
    await until(() => document.isKept);
    before.page.goes();
    isLost = false;
    epoch = 2;

    const after = await load(before.page.tab);
    const again = await after.open();
    const shown = { contents: again.contents };
    again.addEventListener("change", ({ delta }) => (shown.contents = shown.contents.compose(delta)));
    assert.equal(textOf(again.contents), "abHello\n");
    const { delta, revision } = await heard(again, "doubt");
    assert.deepEqual([delta.ops, revision], [[{ insert: "a" }], 1]);
    await again.flush();
    await until(() => again.revision === server.documents.newest("d"));
    assert.equal(textOf({ ops: newest() }).split("a").length, isTaken ? 2 : 1);
    assert.equal(textOf({ ops: newest() }).split("b").length, 2);
    for (const { contents } of [again, shown]) assert.deepEqual(contents.ops, newest());
  }
});

test("an edit whose number others have used since is in doubt too", async (t) => {
  let [isLost, lost] = [true, 0];
  const isA = (message) => isLost && message.ops?.[0]?.insert === "a";
  const spoil = (message) => isA(message) && (lost += 1) > 0;
  const { load, newest, server } = await prepared(t, { refuse: (message) => (isA(message) ? {} : undefined), spoil });
  const before = await load();
  const document = await before.open();
  document.apply([{ insert: "a" }]);
  await until(() => document.isKept && lost > 0);
  before.page.goes();
  isLost = false;
  const other = await connectPlain({ ...server.address, source: before.client.source });
  await other.edit("d", [{ insert: "x" }], 1);
  await other.edit("d", [{ insert: "y" }], 2);
  await other.close();

  const after = await load(before.page.tab);
  const again = await after.open();
  const { delta } = await heard(again, "doubt");
  assert.deepEqual(delta.ops, [{ insert: "a" }]);
  await until(() => again.revision === 3);
  again.apply([{ insert: "z" }]);
  await again.flush();
  assert.equal(textOf({ ops: newest() }), "zyxHello\n");
  assert.deepEqual(again.contents.ops, newest());
});

test("a past that is no longer held after a reload", async (t) => {
  const { load, newest, server, creator } = await prepared(t);
  const before = await load();
  const document = await before.open();
  document.apply([{ retain: 5 }, { insert: " ann" }]);
  await document.flush();
  server.sessions.at(-1).cut();
  document.apply([{ retain: 9 }, { insert: " and bob" }]);
  await until(() => document.isKept);
  before.page.goes();
  await creator.edit("d", [{ insert: "Oh. " }], 2);
  server.documents.raise("d", 3);
  const again = await (await load(before.page.tab)).open();
  await again.flush();
  await until(() => again.revision === server.documents.newest("d"));
  assert.equal(textOf({ ops: newest() }), "Oh. Hello ann and bob\n");
  assert.deepEqual(again.contents.ops, newest());
});

test("what a tab leaves is sent by another one, under the source that it had", async (t) => {
  let isAway = false;
  const edits = [];
  const spoil = (message, session) => {
    if (isAway && session.source !== "creator") return session.cut(), true;
    if (message.base === 1 && message.ops.length > 0) edits.push(session.source);
    return false;
  };
  const { load, newest, browser } = await prepared(t, { spoil });
  const [left, right] = [await load(), await load()];
  const documents = [await left.open(), await right.open()];
  isAway = true;
  documents[1].apply([{ insert: "right " }]);
  await until(() => documents[1].isKept);
  right.page.goes();
  left.page.goes();

  const after = await load(left.page.tab);
  assert.equal(after.client.source, left.client.source);
  const document = await after.open();
  assert.equal(textOf(document.contents), "Hello\n");
  isAway = false;
  await until(() => textOf(document.contents) === "right Hello\n");
  assert.deepEqual(newest(), document.contents.ops);
  assert.deepEqual(edits, [right.client.source]);
  await until(() => !Object.keys(browser.kept()).some((key) => key.startsWith(right.client.source)));
});

test("what a tab left and can't be sent is told", async (t) => {
  let isAway = true;
  const faults = {
    refuse: ({ ops, base }) => (ops?.[0]?.insert === "heavy" && base === 1 ? { code: 16, error: "TooHeavy" } : undefined),
    spoil: (message, session) => isAway && message.base === 1 && message.ops.length > 0 && (session.cut(), true),
  };
  const { load, browser } = await prepared(t, faults);
  const [left, right] = [await load(), await load()];
  const document = await right.open();
  document.apply([{ insert: "heavy" }]);
  await until(() => document.isKept);
  for (const { page } of [left, right]) page.goes();
  isAway = false;
  const after = await load(left.page.tab);
  const { doc, delta, error } = await heard(after.client, "left");
  assert.deepEqual([doc, delta.ops, error.name], ["d", [{ insert: "heavy" }], "TooHeavy"]);
  await until(() => Object.keys(browser.kept()).length === 0);
});

test("a document that is deleted is kept no longer", async (t) => {
  const { load, browser, creator } = await prepared(t);
  const { open, client } = await load();
  const document = await open();
  await until(() => browser.writes > 0);
  await creator.delete("d");
  const { isFinal } = await heard(document, "trouble");
  assert.ok(isFinal);
  await until(() => Object.keys(browser.kept()).length === 0);
  await creator.create("d", [{ insert: "New\n" }]);
  assert.deepEqual((await client.open("d")).contents.ops, [{ insert: "New\n" }]);
});

test("a document is opened once, and anew after it was closed, with what was typed", async (t) => {
  let isAway = false;
  const { load, newest } = await prepared(t, { spoil: (_, session) => isAway && session.source !== "creator" && (session.cut(), true) });
  const { open, client } = await load();
  const document = await open();
  assert.equal(await open(), document);
  isAway = true;
  document.apply([{ insert: "a" }]);
  document.close();
  const again = await open();
  assert.notEqual(again, document);
  assert.equal(textOf(again.contents), "aHello\n");
  isAway = false;
  await again.flush();
  assert.equal(textOf({ ops: newest() }), "aHello\n");
  await client.close();
});

test("a browser's sources are used again, one for each page", async () => {
  const browser = new Browser();
  const [one, other] = [browser.page(), browser.page()];
  const taken = await Promise.all([takeSource(one), takeSource(other), takeSource(other)]);
  const [name] = taken[0].source.split(/-\d+$/);
  assert.deepEqual(taken.map(({ source }) => source).sort(), [0, 1, 2].map((k) => `${name}-${k}`));
  assert.match(name, /^js-[0-9a-f]{24}$/);
  assert.deepEqual(taken.map(({ lasts }) => lasts), [true, true, true]);
  other.goes();
  one.goes();
  const again = await takeSource(browser.page(other.tab)); // a reload of a tab, and then a new one
  assert.equal(again.source, taken[1].source);
  assert.equal(again.isNew, false);
  const next = await takeSource(browser.page());
  assert.equal(next.source, [taken[0], taken[2]].map(({ source }) => source).sort()[0]);
  next.release();
  await until(async () => (await lock(browser.page().locks, next.source)) !== undefined);
});

test("a page that may keep nothing has a name of its own, and keeps nothing", async (t) => {
  const { server } = await prepared(t);
  const page = new Browser().page();
  page.locks.request = () => Promise.reject(new Error("forbidden"));
  for (const none of [undefined, page]) {
    const client = await connect(server.address, none);
    t.after(() => client.close());
    const document = await client.open("d");
    assert.match(client.source, /^js-[0-9a-f]{24}$/);
    assert.equal(client.keeps, false);
    document.apply([{ insert: "a" }]);
    assert.equal(document.isKept, false);
    await document.flush();
    assert.ok(document.isKept);
  }
});

test("drawn typing in two tabs, with pages that go and come, cuts and writes that fail: what is kept is there once", async (t) => {
  const draw = new Draw(Number(process.env.SEED ?? 9));
  let isQuiet = false;
  const spoil = (_, session) => !isQuiet && session.source !== "creator" && draw.below(25) === 0 && (session.cut(), true);
  const { load, newest, server, browser } = await prepared(t, { spoil }, [{ insert: "\n" }]);
  browser.beforeWrite = async () => {
    if (draw.below(4) === 0) await new Promise((resolve) => setTimeout(resolve, draw.below(6)));
    if (!isQuiet && draw.below(40) === 0) browser.faults.push(new Error("full"));
  };
  const tabs = await Promise.all([0, 1].map(async () => ({ ...(await load()), tokens: new Set() })));
  for (const tab of tabs) tab.document = await tab.open();
  const [kept, unkept] = [new Set(), new Set()];
  for (let round = 0; round < 300; round += 1) {
    const tab = draw.of(tabs);
    if (draw.below(15) === 0) {
      const place = tab.document.isKept ? kept : unkept;
      for (const token of tab.tokens) place.add(token);
      tab.page.goes();
      Object.assign(tab, await load(draw.below(4) === 0 ? undefined : tab.page.tab), { tokens: new Set() });
      tab.document = await tab.open();
    }
    const at = draw.below(tab.document.contents.length());
    const token = String.fromCodePoint(0x4e00 + round);
    tab.tokens.add(token);
    tab.document.apply([...(at > 0 ? [{ retain: at }] : []), { insert: token }]);
    if (draw.below(3) === 0) await new Promise((resolve) => setTimeout(resolve, draw.below(12)));
  }
  isQuiet = true;
  for (const tab of tabs) {
    await tab.document.flush();
    for (const token of tab.tokens) kept.add(token);
  }
  await until(() => tabs.every(({ document }) => document.isSaved && document.revision === server.documents.newest("d")));
  const isLeft = () => Object.entries(browser.kept()).some(([key, value]) => !key.endsWith("base") && !tabs.some(({ client }) => key.startsWith(client.source)));
  const last = await load();
  await until(() => !isLeft() || Object.keys(browser.kept()).length <= 4);
  await until(() => tabs.every(({ document }) => document.revision === server.documents.newest("d")));
  const text = textOf({ ops: newest() });
  const counts = new Map();
  for (const token of text.trim()) counts.set(token, (counts.get(token) ?? 0) + 1);
  assert.deepEqual([...counts].filter(([, count]) => count > 1), []);
  assert.deepEqual([...kept].filter((token) => !counts.has(token)), []);
  assert.ok(unkept.size < 300);
  for (const { document } of tabs) assert.deepEqual(document.contents.ops, newest());
  await last.client.close();
});

test("an edit that was sent behind a refused command holds up nobody once its document is closed", async (t) => {
  let isQuiet = false;
  const sent = [];
  const refuse = (message) => (isQuiet && message.do === "delete" ? { code: 16, error: "TooHeavy" } : undefined);
  const spoil = (message, session) => {
    if (!isQuiet || session.source === "creator" || message.base > 2 ** 52) return false;
    sent.push({ message, session });
    return true;
  };
  const { load } = await prepared(t, { refuse, spoil });
  const { client, open } = await load();
  const document = await open();
  document.apply([{ insert: "a" }]);
  await document.flush();
  isQuiet = true;
  const deleted = client.delete("d");
  document.apply([{ insert: "b" }]);
  await until(() => sent.length === 2);
  const [{ session }] = sent;
  session.reply({ code: 16, error: "TooHeavy" });
  await assert.rejects(deleted, { name: "TooHeavy" });
  document.close();
  isQuiet = false;
  session.cut();
  await heard(client, "connected");
  assert.equal(textOf(await client.fetch("d", undefined, { timeout: Infinity })), "aHello\n");
});
