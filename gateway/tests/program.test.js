// The program over a store: its start and end, what it prints and counts, and what befalls it.

import assert from "node:assert/strict";
import { spawnSync } from "node:child_process";
import { readFileSync, writeFileSync } from "node:fs";
import net from "node:net";
import path from "node:path";
import test from "node:test";
import { connect } from "../../clients/js/node.js";
import { webSockets } from "../websockets.js";
import { EtcdProgram, GatewayProgram, ROOT, Richd, folderFor, needsEtcd, needsRichd, pause, until } from "./programs.js";
import { Talk } from "./talk.js";

const { WebSocket } = webSockets();

async function begun(t, settings, ...shape) {
  const store = new Richd(t, "--docs", "64", ...shape);
  await store.serve();
  const data = path.join(folderFor(t), "data");
  const gateway = new GatewayProgram(t, () => ({ stores: [{ name: "s1", host: "127.0.0.1", port: store.port }], data, ...settings }), "pipe");
  await gateway.start();
  return { store, gateway, data };
}

async function connected(t, gateway, source) {
  const client = await connect({ url: gateway.url, WebSocket, source, timeout: 120_000 });
  t.after(() => client.close());
  return client;
}

test("two clients write through it, and it ends in order", needsRichd, async (t) => {
  const { store, gateway } = await begun(t);
  const [ann, bob] = [await connected(t, gateway), await connected(t, gateway)];
  const [left, right] = [await ann.open("d", { create: [{ insert: "\n" }] }), await bob.open("d", { create: [{ insert: "\n" }] })];
  for (let k = 0; k < 20; k += 1) {
    left.apply([{ insert: "l" }]);
    right.apply([{ insert: "r" }]);
    await Promise.all([left.flush(), right.flush()]);
  }
  await until(() => left.revision === 41 && right.revision === 41);
  assert.deepEqual(left.contents.ops, right.contents.ops);
  const health = await gateway.get("healthz");
  assert.deepEqual([health.status, await health.json()], [200, { etcd: null, ok: true, stores: { s1: true } }]);
  assert.deepEqual(await (await gateway.get("docs")).json(), { docs: ["d"], next: null });
  const metrics = await gateway.metrics();
  assert.equal(metrics.get("sessions"), 2);
  assert.equal(metrics.get('commands_total{result="taken"}'), 41);
  assert.equal(metrics.get('store_sessions{store="s1",kind="writer"}'), 16);
  assert.equal(metrics.get("reply_milliseconds_count"), metrics.get('commands_total{result="taken"}') + metrics.get('commands_total{result="refused"}') + metrics.get('commands_total{result="again"}'));
  const talk = await Talk.begin(t, gateway.url, "eve");
  assert.equal(await gateway.kill("SIGTERM"), 0);
  assert.equal(await talk.closed(), 1012);
  const events = gateway.said.map(({ event }) => event);
  assert.deepEqual(events.slice(0, 2).sort(), ["a store is there", "begins"]);
  assert.ok(events.includes("ends"));
  await store.kill();
  assert.equal(store.dump().get("d").rev, 41);
});

test("metrics may have an address of their own", needsRichd, async (t) => {
  const { gateway } = await begun(t, { watch: "127.0.0.1:0", limits: { sessions: 1 } });
  assert.equal((await gateway.get("metrics")).status, 404);
  assert.equal((await gateway.get("healthz")).status, 200);
  const talk = await Talk.begin(t, gateway.url, "ann");
  assert.equal(await new Talk(gateway.url).closed(), 4503);
  assert.ok(gateway.said.some(({ event }) => event === "full"));
  talk.socket.terminate();
});

test("the user by a proxy's header, and rights by a module", needsRichd, async (t) => {
  const module = path.join(folderFor(t), "rights.mjs");
  writeFileSync(module, 'export const can = (user, doc, action) => action === "read" || doc.startsWith(user);\n');
  const { gateway } = await begun(t, { user: { header: "X-Remote-User" }, module });
  const refused = new Talk(gateway.url);
  await until(() => refused.error !== undefined);
  assert.match(refused.error.message, /401/);
  const ann = await Talk.begin(t, gateway.url, "token", { headers: { "x-remote-user": "ann" } });
  assert.equal((await ann.ask({ do: "create", doc: "bob.d", n: 1, ops: [] })).code, 60);
  assert.equal((await ann.ask({ do: "create", doc: "ann.d", n: 1, ops: [] })).ok, "taken");
});

test("all 64 places of the store taken: browsers wait, nobody is refused", needsRichd, async (t) => {
  const seconds = Number(process.env.PLACES_SECONDS ?? 15);
  const store = new Richd(t, "--docs", "64");
  await store.serve();
  const others = Array.from({ length: 64 }, () => net.connect(store.port, "127.0.0.1").on("error", () => {}));
  for (const other of others) other.write('{"do":"hello","source":"other"}\n');
  t.after(() => others.forEach((other) => other.destroy()));
  await pause(500);
  const data = path.join(folderFor(t), "data");
  const gateway = new GatewayProgram(t, () => ({ stores: [{ name: "s1", host: "127.0.0.1", port: store.port }], data }), "pipe");
  await gateway.start();
  assert.equal((await gateway.get("healthz")).status, 503);
  const clients = await Promise.all(Array.from({ length: 20 }, () => connected(t, gateway)));
  const told = [];
  for (const client of clients) client.addEventListener("state", ({ state }) => told.push(state));
  const began = performance.now();
  const opened = Promise.all(clients.map(async (client, index) => {
    const document = await client.open(`d${index}`, { create: [{ insert: "\n" }] });
    document.apply([{ insert: `${index}` }]);
    await document.flush();
    return document;
  }));
  await pause(1_000 * seconds);
  for (const other of others) other.destroy();
  const documents = await opened;
  assert.ok(performance.now() - began > 1_000 * seconds);
  assert.deepEqual(documents.map(({ revision }) => revision), Array(20).fill(2));
  assert.deepEqual(told, [], "no session was cut");
});

test("a browser that doesn't read costs a bounded memory, holds nobody up, and is ended", needsRichd, async (t) => {
  const { gateway } = await begun(t, {}, "--cell", "4000000", "--slot", "4000000", "--keep", "4096");
  const ann = await connected(t, gateway);
  const document = await ann.open("d", { create: [{ insert: "\n" }] });
  const [slow, fast] = [await Talk.begin(t, gateway.url, "slow"), await connected(t, gateway)];
  await slow.ask({ do: "subscribe", doc: "d", rev: 1 });
  const followed = await fast.open("d");
  slow.socket.pause();
  const before = (await gateway.metrics()).get("process_resident_memory_bytes");
  let most = 0;
  for (let k = 0; k < 600; k += 1) {
    document.apply([{ insert: "x".repeat(20_000) }, ...(k > 0 ? [{ delete: 20_000 }] : [])]);
    await document.flush();
    if (k % 50 === 0) most = Math.max(most, (await gateway.metrics()).get("process_resident_memory_bytes"));
  }
  await until(() => followed.revision === document.revision);
  assert.ok(most - before < 100 << 20, `${(most - before) >> 20} MiB more`);
  if (slow.code === null) {
    slow.socket.resume();
    await until(() => slow.code !== null || slow.news.at(-1)?.ended === 13 || slow.news.at(-1)?.news === document.revision);
    const news = slow.news.filter(({ ended }) => ended === undefined).map(({ news }) => news);
    assert.deepEqual(news, news.map((_, index) => 2 + index), "in order, none missing");
  }
});

test("a browser that asks and asks, and reads nothing, is bounded too", needsRichd, async (t) => {
  const { gateway } = await begun(t, {}, "--cell", "4000000", "--slot", "4000000");
  const ann = await connected(t, gateway);
  const document = await ann.open("d", { create: [{ insert: "\n" }] });
  for (let k = 0; k < 20; k += 1) document.apply([{ insert: "x".repeat(15_000) }]);
  await document.flush();
  const greedy = await Promise.all(Array.from({ length: 10 }, (_, k) => Talk.begin(t, gateway.url, `greedy${k}`)));
  const before = (await gateway.metrics()).get("process_resident_memory_bytes");
  for (const talk of greedy) {
    talk.socket.pause();
    for (let k = 0; k < 1_000; k += 1) talk.send({ do: "fetch", doc: "d" });
  }
  await pause(3_000);
  const after = (await gateway.metrics()).get("process_resident_memory_bytes");
  assert.ok(after - before < 150 << 20, `${(after - before) >> 20} MiB more`);
  document.apply([{ insert: "still served" }]);
  await document.flush();
});

test("documents that a store had are imported, and listed", { skip: needsRichd.skip || needsEtcd.skip }, async (t) => {
  const store = new Richd(t, "--docs", "64");
  await store.serve();
  const client = await connect({ host: "127.0.0.1", port: store.port });
  for (const doc of ["old1", "old2"]) await client.create(doc, [{ insert: "\n" }]);
  await client.close();
  const list = path.join(folderFor(t), "list");
  await store.kill();
  writeFileSync(list, [...store.dump()].map(([doc, { rev }]) => `${doc} ${rev} 0 {}\n`).join(""));
  await store.serve();
  const etcd = new EtcdProgram(t);
  await etcd.start();
  const gateway = new GatewayProgram(t, () => ({ stores: [{ name: "s1", host: "127.0.0.1", port: store.port }], etcd: { urls: etcd.urls } }), "pipe");
  await gateway.start();
  const talk = await Talk.begin(t, gateway.url, "ann");
  assert.equal((await talk.ask({ do: "fetch", doc: "old1" })).code, 6);
  const run = spawnSync(process.execPath, [path.join(ROOT, "gateway/program.js"), "import", "s1", "--settings", gateway.file, list], { encoding: "utf8" });
  assert.deepEqual([run.status, run.stdout], [0, "2 documents of 2 are in s1\n"], run.stderr);
  assert.equal((await talk.ask({ do: "fetch", doc: "old1" })).rev, 1);
  assert.deepEqual(await (await gateway.get("docs")).json(), { docs: ["old1", "old2"], next: null });
});

test("a store is added by SIGHUP, and new documents go there", { skip: needsRichd.skip || needsEtcd.skip }, async (t) => {
  const stores = [new Richd(t, "--docs", "8"), new Richd(t, "--docs", "8")];
  for (const store of stores) await store.serve();
  const etcd = new EtcdProgram(t);
  await etcd.start();
  const addresses = stores.map(({ port }, index) => ({ name: `s${index + 1}`, host: "127.0.0.1", port }));
  const gateway = new GatewayProgram(t, () => ({ stores: addresses.slice(0, 1), etcd: { urls: etcd.urls } }), "pipe");
  await gateway.start();
  const talk = await Talk.begin(t, gateway.url, "ann");
  for (let k = 0; k < 8; k += 1) assert.equal((await talk.ask({ do: "create", doc: `d${k}`, n: 1, ops: [] })).ok, "taken");
  assert.equal((await talk.ask({ do: "create", doc: "d8", n: 1, ops: [] })).code, 20, "the only store is full of documents");
  writeFileSync(gateway.file, JSON.stringify({ ...JSON.parse(readFileSync(gateway.file, "utf8")), stores: addresses }));
  gateway.signal("SIGHUP");
  await until(() => gateway.said.some(({ event }) => event === "settings read again"));
  for (const doc of ["d8", "d9"]) assert.equal((await talk.ask({ do: "create", doc, n: 1, ops: [] })).ok, "taken");
  const open = (await gateway.metrics()).get('store_sessions{store="s2",kind="writer"}');
  assert.ok(open > 0, `${open} sessions of the new store`);
});
