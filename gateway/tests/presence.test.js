// Carets: who gets them, and how many.

import assert from "node:assert/strict";
import test from "node:test";
import { Presence } from "../presence.js";
import { FakeStore, Talk, gatewayFor, pause, until } from "./talk.js";

async function begun(t, settings) {
  const store = await FakeStore.begin(t);
  return { store, ...(await gatewayFor(t, { stores: [{ name: "s1", ...store.address }], ...settings })) };
}

const caret = (at, rev = 1, doc = "d") => ({ at, do: "presence", doc, rev });

test("carets go to those alone who have sent theirs, never to oneself, and no store hears of them", async (t) => {
  const { url, store } = await begun(t, { authorize: ({ headers }) => ({ id: headers["x-user"], name: `${headers["x-user"]}'s name` }) });
  const as = (user) => ({ headers: { "x-user": user } });
  const [ann, bob, eve] = [await Talk.begin(t, url, "a", as("ann")), await Talk.begin(t, url, "b", as("bob")), await Talk.begin(t, url, "c", as("eve"))];
  assert.deepEqual(await ann.ask(caret([1, 2])), { doc: "d", ok: "presence" });
  assert.deepEqual(await bob.ask(caret([3, 0], 5)), { doc: "d", ok: "presence" });
  await until(() => ann.carets.length === 1 && bob.carets.length === 1);
  const [ofAnn] = bob.carets;
  const [ofBob] = ann.carets;
  assert.deepEqual(ofAnn, { at: [1, 2], doc: "d", presence: ofAnn.presence, rev: 1, user: "ann's name" });
  assert.deepEqual(ofBob, { at: [3, 0], doc: "d", presence: ofBob.presence, rev: 5, user: "bob's name" });
  assert.notEqual(ofAnn.presence, ofBob.presence);
  assert.deepEqual(bob.lines.map(({ ok, presence }) => ok ?? presence), ["hello", "presence", ofAnn.presence], "behind the reply");
  await ann.ask(caret(null, 2));
  await until(() => bob.carets.length === 2);
  assert.deepEqual(bob.carets[1], { at: null, doc: "d", presence: ofAnn.presence, rev: 2, user: "ann's name" });
  await bob.ask(caret([4, 4], 5));
  await pause(250);
  assert.equal(ann.carets.length, 1, "she has left");
  assert.deepEqual([eve.carets.length, store.asked.length], [0, 0]);
});

test("a browser that goes leaves no caret", async (t) => {
  const { url } = await begun(t);
  const [ann, bob] = [await Talk.begin(t, url, "ann"), await Talk.begin(t, url, "bob")];
  await ann.ask(caret([0, 0], 3));
  await bob.ask(caret([0, 0], 3));
  ann.socket.terminate();
  await until(() => bob.carets.at(-1)?.at === null);
});

test("of many carets within a tenth of a second the newest is told", async (t) => {
  const { url } = await begun(t);
  const [ann, bob] = [await Talk.begin(t, url, "ann"), await Talk.begin(t, url, "bob")];
  await ann.ask(caret([0, 0]));
  await bob.ask(caret([0, 0]));
  await until(() => ann.carets.length === 1);
  for (let at = 1; at <= 50; at += 1) bob.send(caret([at, at]));
  await until(() => ann.carets.at(-1).at[0] === 50);
  assert.ok(ann.carets.length <= 4, `${ann.carets.length} lines`);
});

test("a line of presence has 512 bytes at most", async (t) => {
  const { url } = await begun(t);
  const ann = await Talk.begin(t, url, "ann");
  const line = `${JSON.stringify(caret([0, 0]))}${" ".repeat(1_000)}`;
  assert.equal((await ann.ask(line)).ok, "presence", "blanks aren't kept");
  assert.equal((await ann.ask({ ...caret([0, 0]), name: "x" })).code, 2);
});

test("a document has a hundred carets; another one is answered, and told to nobody", () => {
  const presence = new Presence();
  const said = new Map();
  const teller = (id) => ({ id, shownName: "u", isSlow: false, say: (lines) => said.set(id, (said.get(id) ?? "") + lines) });
  const tellers = Array.from({ length: 101 }, (_, id) => teller(id));
  for (const one of tellers) presence.set(one, caret([0, 0]));
  assert.equal(said.get(99).split("\n").length - 1, 99);
  assert.equal(said.get(100), undefined);
  presence.depart(tellers[0]);
  presence.set(tellers[100], caret([0, 0]));
  assert.equal(said.get(100).split("\n").length - 1, 99);
  for (const one of tellers) presence.depart(one);
});

test("a browser that is slow gets the newest of each once it isn't", async () => {
  const presence = new Presence();
  const said = [];
  const slow = { id: 1, shownName: "u", isSlow: false, say: (lines) => said.push(...String(lines).split("\n").slice(0, -1).map((line) => JSON.parse(line))) };
  const other = { id: 2, shownName: "v", isSlow: false, say() {} };
  presence.set(slow, caret([0, 0]));
  presence.set(other, caret([0, 0]));
  slow.isSlow = true;
  said.length = 0;
  for (let at = 1; at <= 3; at += 1) {
    presence.set(other, caret([at, at]));
    await pause(120);
  }
  assert.equal(said.length, 0);
  slow.isSlow = false;
  await until(() => said.length > 0);
  assert.deepEqual(said.map(({ at }) => at), [[3, 3]]);
  presence.depart(slow);
  presence.depart(other);
});
