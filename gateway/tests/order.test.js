// What a browser gets, in which order: what a session of its own could have got.

import assert from "node:assert/strict";
import test from "node:test";
import { FakeStore, Talk, gatewayFor, pause, taken, until } from "./talk.js";

const edit = (n, doc = "d") => ({ do: "edit", doc, n, base: 1, ops: [{ insert: `${n}` }] });
const isDo = (what) => (message) => message.do === what;

async function begun(t) {
  const store = await FakeStore.begin(t);
  const served = await gatewayFor(t, { stores: [{ name: "s1", ...store.address }], readers: 2, writers: 2, guests: 2, names: 8 });
  const ann = await Talk.begin(t, served.url, "ann");
  return { store, ann, ...served };
}

test("hello says that it is a gateway, and a second one is refused", async (t) => {
  const { ann } = await begun(t);
  assert.deepEqual(ann.lines, [{ gateway: 1, ok: "hello" }]);
  assert.deepEqual(await ann.ask({ do: "hello", source: "ann" }), { code: 2, error: "BadMessage" });
});

test("commands are sent without waiting, and a read waits for them", async (t) => {
  const { store, ann } = await begun(t);
  ann.send(edit(1), edit(2), { do: "fetch", doc: "d" }, edit(3));
  const [first, second] = [await store.next(), await store.next()];
  assert.deepEqual([first.message.n, second.message.n], [1, 2]);
  await pause(50);
  assert.equal(store.asked.length, 0, "nothing overtakes");
  first.reply(taken(first.message, 1));
  second.reply(taken(second.message, 2));
  const fetch = await store.next();
  assert.equal(fetch.message.do, "fetch");
  await pause(50);
  assert.equal(store.asked.length, 0, "a command doesn't overtake a read");
  fetch.reply({ doc: "d", ok: "doc", ops: [], rev: 2 });
  const third = await store.next();
  third.reply(taken(third.message, 3));
  await until(() => ann.replies.length === 5);
});

test("a fetch and a since, which two sessions read, don't overtake each other", async (t) => {
  const { store, ann } = await begun(t);
  ann.send({ do: "since", doc: "d", rev: 0 }, { do: "fetch", doc: "d" });
  const since = await store.next();
  assert.equal(since.message.do, "since");
  await pause(50);
  assert.equal(store.asked.length, 0);
  since.reply({ deltas: [], doc: "d", ok: "since", rev: 0 });
  assert.equal((await store.next()).message.do, "fetch");
});

test("a read that is older than an own command is asked again", async (t) => {
  const { store, ann, gateway } = await begun(t);
  ann.send(edit(1), { do: "fetch", doc: "d" });
  const command = await store.next();
  command.reply(taken(command.message, 7));
  (await store.next()).reply({ doc: "d", ok: "doc", ops: [], rev: 6 });
  (await store.next()).reply({ doc: "d", ok: "doc", ops: [], rev: 7 });
  await until(() => ann.replies.length === 3);
  assert.equal(ann.replies[2].rev, 7);
  assert.equal(gateway.metrics.stale, 1);
});

async function following(t) {
  const begin = await begun(t);
  const { store, ann } = begin;
  ann.send({ do: "subscribe", doc: "d", rev: 1 });
  (await store.next(isDo("since"))).reply({ deltas: [[{ insert: "2" }]], doc: "d", ok: "since", rev: 2 });
  const follower = await store.next(isDo("subscribe"));
  follower.reply({ doc: "d", ok: "subscribed", rev: 2 });
  await until(() => ann.news.length === 1);
  assert.deepEqual(ann.lines.slice(1), [{ doc: "d", ok: "subscribed", rev: 1 }, { doc: "d", news: 2, ops: [{ insert: "2" }] }]);
  return { ...begin, news: (rev) => follower.reply({ doc: "d", news: rev, ops: [{ insert: `${rev}` }] }), follower };
}

test("news of a document waits while a message of it has no reply, and stands behind it", async (t) => {
  const { store, ann, news } = await following(t);
  ann.send(edit(1));
  const command = await store.next();
  news(3);
  news(4);
  await pause(50);
  assert.equal(ann.news.length, 1);
  command.reply(taken(command.message, 3));
  await until(() => ann.news.length === 3);
  assert.deepEqual(ann.lines.slice(3).map(({ ok, news }) => ok ?? news), ["taken", 3, 4]);
});

test("while a later message has no reply, news up to the last own revision is told", async (t) => {
  const { store, ann, news } = await following(t);
  ann.send(edit(1), edit(2));
  const [first, second] = [await store.next(), await store.next()];
  for (const rev of [3, 4, 5]) news(rev);
  first.reply(taken(first.message, 4));
  await until(() => ann.news.length === 3);
  await pause(50);
  assert.deepEqual(ann.news.map(({ news }) => news), [2, 3, 4]);
  second.reply(taken(second.message, 5));
  await until(() => ann.news.length === 4);
});

test("another browser's subscription is served from what is kept, each revision once", async (t) => {
  const { store, news, url } = await following(t);
  news(3);
  const bob = await Talk.begin(t, url, "bob");
  bob.send({ do: "subscribe", doc: "d", rev: 2 });
  await until(() => bob.news.length === 1);
  news(4);
  await until(() => bob.news.length === 2);
  assert.deepEqual(bob.news.map(({ news }) => news), [3, 4]);
  assert.equal(store.asked.length, 0, "no store was asked");
});

test("an end of a subscription reaches all who follow, behind what they wait for", async (t) => {
  const { store, ann, follower } = await following(t);
  ann.send(edit(1));
  const command = await store.next();
  follower.reply({ doc: "d", ended: 13 });
  await pause(50);
  assert.equal(ann.news.length, 1);
  command.reply({ code: 40, error: "Deleted" });
  await until(() => ann.news.length === 2);
  assert.deepEqual(ann.lines.at(-1), { doc: "d", ended: 13 });
});

test("after unsubscribe there is no news, also where it is sent ahead", async (t) => {
  const { ann, news } = await following(t);
  ann.send({ do: "subscribe", doc: "d", rev: 2 }, { do: "unsubscribe", doc: "d" });
  await until(() => ann.replies.length === 4);
  news(3);
  await pause(50);
  assert.equal(ann.news.length, 1);
});

test("once a command was taken the session that follows gets a line", async (t) => {
  const { store, ann } = await following(t);
  let pokes = 0;
  for (const socket of store.sessions) socket.on("data", (bytes) => (pokes += String(bytes).includes('"unsubscribe","doc":"-"') ? 1 : 0));
  ann.send(edit(1));
  const command = await store.next();
  command.reply(taken(command.message, 3));
  await until(() => pokes === 1);
});

test("a since of more than a thousand revisions is too old, and no store answers it", async (t) => {
  const { store, ann } = await begun(t);
  store.newest = 1_003;
  ann.send({ do: "since", doc: "d", rev: 3 });
  (await store.next(isDo("since"))).reply({ deltas: [], doc: "d", ok: "since", rev: 3 });
  await until(() => ann.replies.length === 2);
  for (const what of ["since", "subscribe"]) {
    const before = ann.replies.length;
    ann.send({ do: what, doc: "d", rev: 2 });
    (await store.next(isDo("fetch"))).reply({ doc: "d", ok: "doc", ops: [], rev: 1_003 });
    await until(() => ann.replies.length > before);
    assert.deepEqual(ann.replies.at(-1), { code: 13, error: "TooOld" });
  }
  assert.equal(store.asked.length, 0);
});

test("a line is judged as it is sent on: the last of two members of one name counts, and alone", async (t) => {
  const { store, ann } = await begun(t);
  ann.send('{"do":"edit","doc":"a","doc":"d","n":1,"base":0,"ops":[]}');
  assert.deepEqual((await store.next()).message, { do: "edit", doc: "d", n: 1, base: 0, ops: [] });
});

test("what no store takes is refused here, by the protocol's numbers in their order", async (t) => {
  const { store, ann, url } = await begun(t);
  const bare = new Talk(url);
  t.after(() => bare.socket.terminate());
  await until(() => bare.socket.readyState === 1);
  const code = async (talk, line) => (await talk.ask(line)).code;
  assert.equal(await code(bare, { do: "fetch", doc: "no name!" }), 5);
  assert.equal(await code(bare, { do: "fetch" }), 2);
  assert.equal(await code(bare, { do: "hello", source: "no name!" }), 8);
  const lines = [["", 1], ["{", 1], ['{"do":"fetch","doc":1e999}', 1], ["[]", 2], ["null", 2], [{ do: "nothing", doc: "d" }, 2], [{ do: "fetch", doc: "d", n: 1 }, 2],
    [{ do: "undo", doc: "d", n: 0 }, 2], [{ do: "edit", doc: "d", n: 1, base: 0 }, 2], [{ do: "fetch", doc: "x".repeat(65) }, 8], ["x".repeat(65_537), 23], [{ do: "constructor" }, 2],
    [{ do: "presence", doc: "d", rev: 0, at: [1] }, 2], [{ do: "presence", doc: "d", rev: 0, at: [1, 2 ** 32] }, 2]];
  for (const [line, expected] of lines) assert.equal(await code(ann, line), expected, JSON.stringify(line).slice(0, 50));
  ann.socket.send(Buffer.from([0xff, 10]));
  await until(() => ann.replies.length === lines.length + 2);
  assert.equal(ann.replies.at(-1).code, 1, "no UTF-8");
  assert.equal(store.asked.length, 0);
});

test("of a line that is too long the rest is dropped, and the next one is read", async (t) => {
  const { ann } = await begun(t);
  ann.socket.send("x".repeat(40_000));
  ann.socket.send("x".repeat(40_000));
  await until(() => ann.replies.length === 2);
  assert.deepEqual(ann.replies[1], { code: 23, error: "LineTooLong" });
  ann.socket.send(`${"x".repeat(100)}\n{"do":"unsubscribe","doc":"d"}\n`);
  await until(() => ann.replies.length === 3);
  assert.deepEqual(ann.replies[2], { doc: "d", ok: "unsubscribed" });
});
