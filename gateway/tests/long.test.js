// Documents that are too long to be held: they are passed on in pieces.

import assert from "node:assert/strict";
import test from "node:test";
import { FakeStore, Talk, gatewayFor, pause, taken, until } from "./talk.js";

const MIB = 1 << 20;
const LIMITS = { lineBytes: MIB / 4, newsBytes: MIB / 8 };
const FETCH = { do: "fetch", doc: "d" };
const document = (bytes, rev = 1) => ({ doc: "d", ok: "doc", ops: [{ insert: "x".repeat(bytes) }], rev });
const isLane = ({ source }) => source === "g-long";

async function begun(t, settings) {
  const store = await FakeStore.begin(t);
  const served = await gatewayFor(t, { stores: [{ name: "s1", ...store.address }], guests: 1, limits: LIMITS, ...settings });
  /** The next message over the session of long documents. */
  const asked = async () => {
    await until(() => store.asked.some(isLane), "a fetch over the session of long documents");
    return store.asked.splice(store.asked.findIndex(isLane), 1)[0];
  };
  return { store, asked, counted: (what) => Number(new RegExp(`^richd_gateway_${what} (\\d+)$`, "m").exec(served.gateway.metricsText())[1]), ...served };
}

test("a document that is longer than lineBytes comes whole, others' reads don't wait for it, and nothing stands within it", async (t) => {
  const { store, url, asked, counted } = await begun(t);
  const [ann, bob] = [await Talk.begin(t, url, "ann"), await Talk.begin(t, url, "bob")];
  const caret = (place) => ({ at: [place, place], do: "presence", doc: "d", rev: 1 });
  await ann.ask(caret(1));
  await bob.ask(caret(2));
  ann.send({ do: "subscribe", doc: "d", rev: 1 });
  (await store.next()).reply({ deltas: [], doc: "d", ok: "since", rev: 1 });
  const follower = await store.next();
  follower.reply({ doc: "d", ok: "subscribed", rev: 1 });
  await until(() => ann.replies.length === 3);
  ann.send(FETCH);
  (await store.next()).reply(document(MIB));
  const { write } = await asked();
  const line = JSON.stringify(document(3 * MIB)) + "\n";
  write(line.slice(0, MIB));
  await until(() => ann.begun > MIB / 2);
  follower.reply({ doc: "d", news: 2, ops: [{ insert: "a" }] });
  await bob.ask(caret(3));
  bob.send({ do: "fetch", doc: "e" });
  (await store.next()).reply({ doc: "e", ok: "doc", ops: [], rev: 1 });
  await until(() => bob.replies.length === 4);
  await pause(200);
  assert.equal(ann.news.length, 0);
  write(line.slice(MIB));
  await until(() => ann.news.length === 1 && ann.carets.some(({ at }) => at[0] === 3));
  assert.equal(ann.replies.at(-1).ops[0].insert.length, 3 * MIB);
  assert.equal(counted("passed_total"), 1);
  // it is known by now, and shorter again
  for (const lane of [true, false]) {
    const due = ann.replies.length + 1;
    ann.send(FETCH);
    const message = lane ? await asked() : await store.next();
    message.reply(document(10));
    assert.equal(isLane(message), lane);
    await until(() => ann.replies.length === due);
  }
});

test("who takes nothing of it isn't sent more of it, and the store isn't read meanwhile", async (t) => {
  const { store, url, asked, counted } = await begun(t, { pulse: 1_000_000_000 });
  const [ann, bob] = [await Talk.begin(t, url, "ann"), await Talk.begin(t, url, "bob")];
  ann.send(FETCH);
  (await store.next()).reply(document(MIB));
  const first = await asked();
  ann.socket.pause();
  const bytes = 32 * MIB;
  first.reply(document(bytes));
  await until(() => counted("waiting_bytes") > MIB, "what waits for her", 120_000);
  await pause(300);
  assert.ok(first.unsent() > 4 * MIB, "most of it hasn't left the store");
  assert.ok(counted("waiting_bytes") < 4 * MIB);
  bob.send(FETCH);
  await pause(100);
  assert.equal(store.asked.length, 0, "the next one waits for its turn");
  ann.socket.resume();
  await until(() => ann.replies.length === 2, "all of it", 120_000);
  assert.equal(ann.replies[1].ops[0].insert.length, bytes);
  (await asked()).reply(document(MIB));
  await until(() => bob.replies.length === 2);
});

test("a session that is cut in the middle of it ends the browser's, whose end hands it on", async (t) => {
  const { store, url, asked } = await begun(t);
  const [ann, bob, eve] = [await Talk.begin(t, url, "ann"), await Talk.begin(t, url, "bob"), await Talk.begin(t, url, "eve")];
  ann.send(FETCH);
  (await store.next()).reply(document(MIB));
  const first = await asked();
  for (const talk of [bob, eve]) talk.send(FETCH);
  first.write(JSON.stringify(document(3 * MIB)).slice(0, MIB));
  await until(() => ann.begun > MIB / 2);
  first.cut();
  assert.equal(await ann.closed(), 1012);
  const second = await asked();
  second.write(JSON.stringify(document(3 * MIB)).slice(0, MIB));
  await until(() => bob.begun + eve.begun > MIB / 2);
  const [gone, other] = bob.begun > 0 ? [bob, eve] : [eve, bob];
  gone.socket.terminate();
  await until(() => gone.code !== null);
  second.write("x".repeat(MIB));
  (await asked()).reply(document(2 * MIB));
  await until(() => other.replies.length === 2);
  assert.equal(other.replies[1].ops[0].insert.length, 2 * MIB);
});

test("what doesn't end as a document does is garbage, and is known as late as that", async (t) => {
  const { store, url, asked, counted } = await begun(t);
  const ann = await Talk.begin(t, url, "ann");
  ann.send(FETCH);
  (await store.next()).reply(document(MIB));
  (await asked()).write(JSON.stringify(document(MIB)).slice(0, -5) + "\n");
  assert.equal(await ann.closed(), 1012);
  assert.equal(counted('garbage_total\\{from="store"\\}'), 1);
});

test("a long document isn't older than what its browser has changed", async (t) => {
  const { store, url, asked } = await begun(t);
  store.newest = 1;
  const ann = await Talk.begin(t, url, "ann");
  ann.send({ do: "edit", doc: "d", n: 1, base: 1, ops: [] });
  const { message, reply } = await store.next();
  reply(taken(message, 2));
  await until(() => ann.replies.length === 2);
  ann.send(FETCH);
  (await store.next()).reply(document(MIB, 2));
  await pause(50);
  assert.equal(store.asked.length, 0, "its revision isn't there yet");
  store.newest = 2;
  const since = await asked();
  assert.equal(since.message.do, "since");
  since.reply({ deltas: [], doc: "d", ok: "since", rev: 2 });
  (await asked()).reply(document(MIB, 2));
  await until(() => ann.replies.length === 3);
  assert.equal(ann.replies[2].rev, 2);
});
