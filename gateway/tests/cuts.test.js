// What a cut of a store's session does: reads are asked again, and a command that was sent never is.

import assert from "node:assert/strict";
import test from "node:test";
import { FakeStore, Talk, gatewayFor, pause, taken, until } from "./talk.js";

const edit = (n, doc = "d") => ({ do: "edit", doc, n, base: 1, ops: [] });

async function begun(t, settings) {
  const store = await FakeStore.begin(t);
  const served = await gatewayFor(t, { stores: [{ name: "s1", ...store.address }], writers: 2, guests: 1, names: 8, ...settings });
  return { store, ...served };
}

/** A browser of a gateway whose store is gone. It listened on that port. */
async function withoutStore(t) {
  const { store, url, gateway } = await begun(t);
  const ann = await Talk.begin(t, url, "ann");
  await ann.ask({ do: "lease", doc: "d" });
  const { port } = store.address;
  store.server.close();
  for (const socket of store.sessions) socket.destroy();
  await until(() => !gateway.stores.get("s1").isOpen);
  return { store, gateway, ann, port };
}

test("a browser with a command in a session that is cut is closed, and the command isn't sent again", async (t) => {
  const { store, url } = await begun(t);
  const ann = await Talk.begin(t, url, "ann");
  ann.send(edit(1));
  (await store.next()).cut();
  assert.equal(await ann.closed(), 1012);
  await pause(300);
  assert.equal(store.asked.length, 0);
  const again = await Talk.begin(t, url, "ann");
  again.send(edit(1));
  const { message, reply } = await store.next();
  reply(taken(message, 2, "again"));
  await until(() => again.replies.length === 2);
  assert.equal(again.replies[1].ok, "again");
});

test("a browser without a command in that session stays, and its read is asked again", async (t) => {
  const { store, url } = await begun(t);
  const bob = await Talk.begin(t, url, "bob");
  bob.send({ do: "fetch", doc: "d" });
  (await store.next()).cut();
  (await store.next()).reply({ doc: "d", ok: "doc", ops: [], rev: 1 });
  await until(() => bob.replies.length === 2);
  assert.equal(bob.code, null);
});

test("a subscription goes on over a cut, from the last revision that was told", async (t) => {
  const { store, url } = await begun(t);
  const bob = await Talk.begin(t, url, "bob");
  bob.send({ do: "subscribe", doc: "d", rev: 1 });
  (await store.next()).reply({ deltas: [], doc: "d", ok: "since", rev: 1 });
  const first = await store.next();
  first.reply({ doc: "d", ok: "subscribed", rev: 1 });
  first.reply({ doc: "d", news: 2, ops: [] });
  await until(() => bob.news.length === 1);
  first.cut();
  const second = await store.next();
  assert.deepEqual(second.message, { do: "subscribe", doc: "d", rev: 2 });
  second.reply({ doc: "d", ok: "subscribed", rev: 2 });
  second.reply({ doc: "d", news: 3, ops: [] });
  await until(() => bob.news.length === 2);
  assert.deepEqual(bob.news.map(({ news }) => news), [2, 3]);
});

test("commands of a browser that is gone aren't sent", async (t) => {
  const { store, gateway, ann, port } = await withoutStore(t);
  ann.send(edit(1), edit(2));
  await pause(100);
  assert.equal(ann.code, null, "they wait");
  ann.socket.terminate();
  await until(() => gateway.metricsText().includes("richd_gateway_sessions 0"));
  await new Promise((resolve) => store.server.listen(port, "127.0.0.1", resolve));
  await until(() => gateway.stores.get("s1").open.writer === 2);
  await pause(100);
  assert.equal(store.asked.length, 0);
});

test("what waits more than ten seconds for a store is to be sent again", async (t) => {
  const { store, ann, port } = await withoutStore(t);
  const began = performance.now();
  ann.send(edit(1), { do: "fetch", doc: "d" });
  await until(() => ann.replies.length === 4, "two refusals", 15_000);
  assert.ok(performance.now() - began > 9_000);
  assert.deepEqual(ann.replies.slice(2).map(({ code }) => code), [22, 22]);
  await new Promise((resolve) => store.server.listen(port, "127.0.0.1", resolve));
  ann.send(edit(1));
  const { message, reply } = await store.next();
  reply(taken(message, 2));
  await until(() => ann.replies.length === 5);
  assert.equal(store.asked.filter(({ message }) => message.do === "edit").length, 0, "it was sent once");
});

test("an orderly end waits for what was sent, and sends nothing more", async (t) => {
  const { store, url, close } = await begun(t);
  const [ann, bob] = [await Talk.begin(t, url, "ann"), await Talk.begin(t, url, "bob")];
  ann.send(edit(1), { do: "fetch", doc: "d" });
  const command = await store.next();
  const closing = close();
  assert.equal(await bob.closed(), 1012);
  ann.send(edit(2));
  await pause(50);
  assert.equal(ann.code, null);
  command.reply(taken(command.message, 2));
  assert.equal(await ann.closed(), 1012);
  assert.equal(ann.replies[1].ok, "taken");
  await closing;
  assert.equal(store.asked.length, 0);
});
