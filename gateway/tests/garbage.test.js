// What no store and no etcd sends, and hooks that throw: each is told, and ends at most one session.

import assert from "node:assert/strict";
import http from "node:http";
import net from "node:net";
import test from "node:test";
import { Etcd } from "../etcd.js";
import { Talk, gatewayFor, until } from "./talk.js";

const FETCH = { do: "fetch", doc: "d" };
const SINCE = { do: "since", doc: "d", rev: 1 };
const SUBSCRIBE = { do: "subscribe", doc: "d", rev: 1 };
const EDIT = { do: "edit", doc: "d", n: 1, base: 1, ops: [] };
const LONG = "x".repeat(100_000);

// A message of a browser, and what comes in place of the reply to the store's message of that kind.
const GARBAGE = [
  [FETCH, "hello\n"],
  [FETCH, "abc\n"],
  [FETCH, "\n"],
  [FETCH, "null\n"],
  [FETCH, "{}\n"],
  [FETCH, '{"code":"x","error":1}\n'],
  [FETCH, '{"doc":"e","ok":"doc","ops":[],"rev":1}\n'],
  [FETCH, '{"doc":"d","ok":"doc","ops":[],"rev":"1"}\n'],
  [FETCH, '{"doc":"d","ok":"doc","ops":[,],"rev":1}\n'],
  [FETCH, `{"doc":"d","news":2,"ops":[]}\n`],
  [FETCH, '{"code":13,"error":"TooOld"}\n{"code":13,"error":"TooOld"}\n{"code":13,"error":"TooOld"}\n'],
  [FETCH, Buffer.from([255, 254, 0, 10])],
  [SINCE, '{"doc":"d","ok":"since","rev":1}\n'],
  [SINCE, '{"deltas":7,"doc":"d","ok":"since","rev":1}\n'],
  [SUBSCRIBE, '{"deltas":[,],"doc":"d","ok":"since","rev":1}\n'],
  [SUBSCRIBE, '{"deltas":[[]],"doc":"d","ok":"since","rev":7}\n'],
  [EDIT, '{"doc":"d","n":2,"ok":"taken","rev":2}\n'],
  [EDIT, '{"doc":"d","n":1,"ok":"taken"}\n'],
  [EDIT, LONG], // never an end
  [EDIT, `${LONG}\n`],
];

/** A store that answers as a store, but for what a test puts in its way. */
async function storeFor(t) {
  const store = { greeting: '{"ok":"hello"}\n', instead: undefined, news: "", sessions: 0, open: new Set() };
  const good = ({ do: what, doc, n, rev }) => {
    if (what === "hello") return store.greeting;
    if (rev > 1_000) return '{"code":12,"error":"Future"}\n';
    if (what === "fetch") return `{"doc":"${doc}","ok":"doc","ops":[],"rev":1}\n`;
    if (what === "since") return `{"deltas":[],"doc":"${doc}","ok":"since","rev":${rev}}\n`;
    if (what === "subscribe") return `{"doc":"${doc}","ok":"subscribed","rev":${rev}}\n${store.news}`;
    if (what === "unsubscribe") return `{"doc":"${doc}","ok":"unsubscribed"}\n`;
    return `{"doc":"${doc}","n":${n},"ok":"taken","rev":2}\n`;
  };
  const server = net.createServer((socket) => {
    store.sessions += 1;
    store.open.add(socket);
    socket.on("error", () => {});
    let part = "";
    socket.on("data", (bytes) => {
      const lines = (part + bytes).split("\n");
      part = lines.pop();
      for (const message of lines.map((line) => JSON.parse(line))) {
        const isDue = store.instead?.what === message.do && !(message.rev > 1_000);
        socket.write(isDue ? store.instead.bytes : good(message));
        if (isDue) store.instead = undefined;
      }
    });
  });
  await new Promise((resolve) => server.listen(0, "127.0.0.1", resolve));
  t.after(() => {
    server.close();
    for (const socket of store.open) socket.destroy();
  });
  return Object.assign(store, { address: { name: "s1", host: "127.0.0.1", port: server.address().port } });
}

async function begun(t, settings) {
  const store = await storeFor(t);
  const served = await gatewayFor(t, { stores: [store.address], readers: 1, writers: 1, guests: 1, names: 8, ...settings });
  await until(() => served.gateway.stores.get("s1").isOpen);
  return { store, ...served };
}

const counted = ({ gateway }, what) => Number(new RegExp(`^richd_gateway_${what} (\\d+)$`, "m").exec(gateway.metricsText())[1]);
const GARBAGE_TOTAL = 'garbage_total\\{from="store"\\}';

test("garbage from a store is logged and counted, its session is begun anew, and the next message gets its reply", async (t) => {
  for (const [message, bytes] of GARBAGE) {
    const it = await begun(t);
    const ann = await Talk.begin(t, it.url, "ann");
    await ann.ask({ do: "lease", doc: "d" });
    await until(() => it.gateway.stores.get("s1").open.writer === 1);
    const { sessions } = it.store;
    it.store.instead = { what: message.do === "subscribe" ? "since" : message.do, bytes };
    const said = `${message.do}: ${bytes.toString().slice(0, 60)}`;
    ann.send(message);
    await until(() => it.events.some(({ event }) => event === "a store sends garbage"), said);
    assert.equal(counted(it, GARBAGE_TOTAL) > 0, true, said);
    await until(() => it.store.sessions > sessions, `a new session after ${said}`);
    if (message === EDIT) assert.equal(await ann.closed(), 1012, said);
    else await until(() => ann.replies.length === 3, `a reply after ${said}`);
    const after = message === EDIT ? await Talk.begin(t, it.url, "bob") : ann;
    assert.deepEqual(await after.ask(FETCH), { doc: "d", ok: "doc", ops: [], rev: 1 }, said);
    await it.close();
  }
});

test("garbage in place of a greeting is tried again, each time later", async (t) => {
  const it = await begun(t);
  it.store.greeting = "abc\n";
  for (const socket of it.store.open) socket.destroy();
  await until(() => counted(it, GARBAGE_TOTAL) > 2);
  it.store.greeting = '{"ok":"hello"}\n';
  const ann = await Talk.begin(t, it.url, "ann");
  assert.equal((await ann.ask(FETCH)).rev, 1);
});

test("news that are none end the session that follows, and followers go on", async (t) => {
  const it = await begun(t);
  const ann = await Talk.begin(t, it.url, "ann");
  it.store.news = '{"doc":"d","news":2,"ops":[}\n';
  ann.send(SUBSCRIBE);
  await until(() => counted(it, GARBAGE_TOTAL) > 0);
  it.store.news = '{"doc":"d","news":2,"ops":[]}\n';
  await until(() => ann.news.length === 1);
  assert.deepEqual(ann.news, [{ doc: "d", news: 2, ops: [] }]);
});

test("news that are longer than newsBytes end a subscription, and a since of so much is too old", async (t) => {
  const it = await begun(t, { limits: { lineBytes: 5_000, newsBytes: 3_000 } });
  const ann = await Talk.begin(t, it.url, "ann");
  const text = (bytes) => `[{"insert":"${"x".repeat(bytes)}"}]`;
  for (const message of [SINCE, SUBSCRIBE]) {
    it.store.instead = { what: "since", bytes: `{"deltas":[${text(3_000)}],"doc":"d","ok":"since","rev":2}\n` };
    assert.equal((await ann.ask(message)).code, 13);
  }
  it.store.news = `{"doc":"d","news":2,"ops":${text(3_000)}}\n`;
  ann.send(SUBSCRIBE);
  await until(() => ann.news.length === 1);
  assert.deepEqual(ann.news, [{ doc: "d", ended: 13 }]);
  assert.equal(counted(it, GARBAGE_TOTAL), 0);
});

test("whatever throws in a hook ends nothing but what it was asked for", async (t) => {
  const thrown = () => { throw new Error("a hook's fault"); };
  const odd = { then: thrown };
  for (const fault of [thrown, async () => thrown(), () => odd]) {
    const settings = { can: (user, doc) => (doc === "can" ? fault() : true), onCommand: ({ doc }) => (doc === "onCommand" ? fault() : true), onTaken: fault };
    const it = await begun(t, { ...settings, authorize: ({ url }) => (url === "/bad" ? fault() : "ann"), log: thrown });
    const refused = new Talk(`${it.url}bad`);
    await until(() => refused.error !== undefined);
    assert.match(refused.error.message, /503/);
    const ann = await Talk.begin(t, it.url, "ann");
    assert.equal((await ann.ask({ do: "fetch", doc: "can" })).code, 22);
    assert.equal((await ann.ask({ ...EDIT, doc: "onCommand" })).code, 22);
    assert.equal((await ann.ask({ do: "lease", doc: "d" })).ok, "lease");
    assert.equal((await ann.ask(EDIT)).ok, "taken");
    assert.equal((await ann.ask(FETCH)).rev, 1);
    await it.close();
  }
});

test("a fault of the gateway's own ends the one session whose message it was", async (t) => {
  const it = await begun(t);
  const [ann, bob] = [await Talk.begin(t, it.url, "ann"), await Talk.begin(t, it.url, "bob")];
  const { places } = it.gateway;
  const cached = places.cached.bind(places);
  places.cached = (doc) => { if (doc === "fault") throw new Error("a fault"); return cached(doc); };
  ann.send({ do: "fetch", doc: "fault" });
  assert.equal(await ann.closed(), 1011);
  assert.equal((await bob.ask(FETCH)).rev, 1);
  assert.equal(counted(it, "faults_total"), 1);
  assert.ok(it.events.some(({ event, user }) => event === "a fault of the gateway" && user === "anybody"));
});

const ANSWERS = ["hello", "null", "{}", '{"kvs":[]}', '{"header":{},"kvs":"x"}', '{"header":{},"kvs":[null]}', '{"header":{},"kvs":[{"key":7}]}',
  '{"header":{},"kvs":[{"key":"eA==","value":"eA==","mod_revision":"x"}]}', "x".repeat(2_000)];

test("garbage from etcd is logged and counted, and counts as no answer", async (t) => {
  let answer;
  const server = http.createServer((request, response) => response.end(answer));
  await new Promise((resolve) => server.listen(0, "127.0.0.1", resolve));
  t.after(() => server.close());
  const events = [];
  let garbage = 0;
  const etcd = new Etcd({ urls: [`http://127.0.0.1:${server.address().port}`], log: (event) => events.push(event), onGarbage: () => (garbage += 1), most: 1_000 });
  t.after(() => etcd.close());
  for (answer of ANSWERS) await assert.rejects(etcd.get("key"), answer.slice(0, 60));
  for (answer of [...ANSWERS, '{"header":{},"succeeded":"yes"}', '{"header":{},"succeeded":true}', '{"header":{},"responses":[{}]}']) {
    await assert.rejects(etcd.create("key", "value"), answer.slice(0, 60));
  }
  assert.equal(garbage, 2 * ANSWERS.length + 3);
  assert.ok(events.includes("etcd sends garbage"));
  answer = '{"header":{}}';
  assert.equal(await etcd.get("key"), undefined);
  assert.equal(await etcd.transact([], []), false);
});
