// What users may take, and what is held for them.

import assert from "node:assert/strict";
import net from "node:net";
import test from "node:test";
import { LIMITS } from "../settings.js";
import { Account, Allowance } from "../users.js";
import { folderFor } from "./programs.js";
import { FakeStore, Talk, gatewayFor, pause, until } from "./talk.js";

const MIB = 1 << 20;
const NEVER = 1_000_000_000; // milliseconds: who reads nothing isn't cut off for that

async function begun(t, settings) {
  const store = await FakeStore.begin(t);
  const served = await gatewayFor(t, { stores: [{ name: "s1", ...store.address }], authorize: ({ headers }) => headers["x-user"], ...settings });
  return { store, ...served };
}

const as = (user) => ({ headers: { "x-user": user } });
const counted = ({ gateway }, what) => Number(new RegExp(`^richd_gateway_${what} (\\d+)$`, "m").exec(gateway.metricsText())[1]);
const document = (doc, bytes) => ({ doc, ok: "doc", ops: [{ insert: "x".repeat(bytes) }], rev: 1 });

test("where too much waits for all browsers, the one for whom most waits is closed, and nobody else", async (t) => {
  const it = await begun(t, { pulse: NEVER, limits: { lineBytes: 12 * MIB, waitingBytes: 16 * MIB } });
  const [ann, bob, eve] = [await Talk.begin(t, it.url, "a", as("ann")), await Talk.begin(t, it.url, "b", as("bob")), await Talk.begin(t, it.url, "c", as("eve"))];
  for (const talk of [bob, eve]) talk.socket.pause();
  const fetched = async (talk, bytes, times = 1) => {
    talk.send(...Array(times).fill({ do: "fetch", doc: "d" }));
    const asked = [];
    for (let k = 0; k < times; k += 1) asked.push(await it.store.next());
    for (const { reply } of asked) reply(document("d", bytes));
  };
  await fetched(bob, 6 * MIB);
  await fetched(eve, 10 * MIB, 3); // whatever the system takes of it, more than 16 MiB wait now
  await until(() => counted(it, "overfull_total") === 1, "the end of eve's session", 120_000);
  await until(() => counted(it, "sessions") === 2);
  assert.ok(counted(it, "waiting_bytes") <= 16 * MIB);
  assert.deepEqual(it.events.filter(({ event }) => event.startsWith("too much waits")).map(({ user }) => user), ["eve"]);
  await fetched(ann, MIB);
  await until(() => ann.replies.length === 2);
  bob.socket.resume();
  await until(() => bob.replies.length === 2);
  await until(() => counted(it, "waiting_bytes") === 0);
});

test("news that are kept of all documents have one bound, and who is behind them is told to fetch", async (t) => {
  const it = await begun(t, { pulse: NEVER, limits: { newsBytes: MIB, keptBytes: 2 * MIB } });
  const [ann, bob] = [await Talk.begin(t, it.url, "a", as("ann")), await Talk.begin(t, it.url, "b", as("bob"))];
  const docs = Array.from({ length: 60 }, (_, index) => `d${index}`);
  const replies = new Map();
  for (const doc of docs) {
    for (const talk of [ann, bob]) talk.send({ do: "subscribe", doc, rev: 1 });
    while ((!replies.has(doc) || it.store.asked.length > 0) || ann.replies.length + bob.replies.length < 2 * (2 + docs.indexOf(doc))) {
      if (it.store.asked.length === 0) { await pause(5); continue; }
      const { message, reply } = await it.store.next();
      if (message.do === "since") reply({ deltas: [], doc, ok: "since", rev: 1 });
      else replies.set(doc, reply) && reply({ doc, ok: "subscribed", rev: 1 });
    }
  }
  bob.socket.pause();
  for (const [index, doc] of docs.entries()) {
    for (const news of [2, 3]) replies.get(doc)({ doc, news, ops: [{ insert: "x".repeat(MIB / 4) }] });
    await until(() => ann.news.length === 2 * index + 2);
    assert.deepEqual(ann.news.slice(-2).map(({ news }) => news), [2, 3]);
  }
  assert.ok(counted(it, "kept_bytes") <= 2 * MIB);
  bob.socket.resume();
  await until(() => docs.every((doc) => bob.news.some((line) => line.doc === doc && (line.ended === 13 || line.news === 3))));
  assert.ok(bob.news.some(({ ended }) => ended === 13));
  for (const doc of docs) {
    const revs = bob.news.filter((line) => line.doc === doc && line.news !== undefined).map(({ news }) => news);
    assert.deepEqual(revs, [2, 3].slice(0, revs.length));
  }
});

/** A masked frame of a WebSocket, as a browser sends it. */
const frame = (first, bytes = Buffer.alloc(0)) => Buffer.concat([Buffer.from([first, 0x80 | bytes.length, 0, 0, 0, 0]), bytes]);
const PING = frame(0x89, Buffer.alloc(100));
const PIECE = frame(0x02, Buffer.from("x")); // begins a message that has more
const MORE = frame(0x00, Buffer.from("x"));
const BYTE = frame(0x82, Buffer.from("x"));

test("so much a second, and so much at once; more is owed for a while", () => {
  let now = 0;
  const allowance = new Allowance(10, 30, () => now);
  allowance.take(30);
  assert.equal(allowance.owed, 0);
  allowance.take(20);
  assert.equal(allowance.owed, 2);
  now += 1_000;
  assert.equal(allowance.owed, 1);
  allowance.take(-10);
  assert.equal(allowance.owed, 0);
  assert.equal(allowance.takesOne(), false);
  now += 100;
  assert.equal(allowance.takesOne(), true);
  now += 1_000_000;
  allowance.take(31);
  assert.equal(allowance.owed, 0.1);
});

test("who sends much that is no line is closed, and nobody else is", async (t) => {
  const AT_ONCE = 1 << 18;
  // a ping, or a message that ends no line, counts for a kilobyte besides
  for (const [begin, more, cost] of [[PING, PING, PING.length + 1_024], [BYTE, BYTE, BYTE.length + 1_024], [PIECE, MORE, MORE.length]]) {
    const it = await begun(t, { limits: { userOverhead: 16 } });
    const [ann, eve] = [await Talk.begin(t, it.url, "a", as("ann")), await Talk.begin(t, it.url, "e", as("eve"))];
    eve.socket._socket.write(Buffer.concat([begin, ...Array(Math.ceil(AT_ONCE / cost)).fill(more)]));
    assert.equal(await eve.closed(), 4429);
    assert.equal(await new Talk(it.url, as("eve")).closed(), 4429, "and not let in again until then");
    assert.ok(it.events.some(({ event, user, limit }) => event === "a user sends more than he may, and is closed" && user === "eve" && limit === "userOverhead"));
    assert.equal(ann.code, null);
    await ann.ask({ do: "unsubscribe", doc: "d" });
    await it.close();
  }
});

test("lines aren't counted as what is no line, however long and in how many pieces", async (t) => {
  const it = await begun(t, { limits: { userOverhead: 2_000 } });
  const ann = await Talk.begin(t, it.url, "a", as("ann"));
  const line = JSON.stringify({ do: "edit", doc: "d", n: 1, base: 1, ops: [{ insert: "x".repeat(65_000) }] });
  for (let k = 0; k < 10; k += 1) {
    ann.send(line);
    const { message, reply } = await it.store.next();
    reply({ doc: "d", n: message.n, ok: "again", rev: 2 });
    await until(() => ann.replies.length === k + 2);
  }
  assert.equal(counted(it, 'slowed_total\\{limit="userOverhead"\\}'), 0);
});

test("a user's bytes a second are read and no more, and so are an address's", async (t) => {
  for (const limit of ["userBytes", "addressBytes"]) {
    const limits = { [limit]: 2_000 };
    const it = await begun(t, { address: { header: "X-Real-IP" }, limits });
    const from = (user, address) => ({ headers: { "x-user": user, "x-real-ip": address } });
    const [ann, eve] = [await Talk.begin(t, it.url, "a", from("ann", "10.0.0.1")), await Talk.begin(t, it.url, "e", from("eve", "10.0.0.1, 10.0.0.2"))];
    const began = performance.now();
    const small = { do: "unsubscribe", doc: "d" };
    await eve.ask(JSON.stringify(small) + " ".repeat(10_000)); // five seconds' bytes
    await until(() => counted(it, `slowed_total\\{limit="${limit}"\\}`) === 1);
    await ann.ask(small);
    await eve.ask(small);
    assert.ok(performance.now() - began > 3_000);
    assert.equal(eve.code, null);
  }
});

test("where an address has too many sessions the next one is refused, before anybody asks who it is", async (t) => {
  const asked = [];
  const authorize = ({ headers }) => (asked.push(headers["x-user"]), headers["x-user"] === "slow" ? new Promise(() => {}) : headers["x-user"]);
  const it = await begun(t, { authorize, address: { header: "x-real-ip" }, limits: { addressSessions: 2 } });
  const from = (user, address) => ({ headers: { "x-user": user, "x-real-ip": address } });
  const slow = new Talk(it.url, from("slow", "10.0.0.1"));
  await until(() => asked.includes("slow"));
  const ann = await Talk.begin(t, it.url, "a", from("ann", "10.0.0.1"));
  const refused = new Talk(it.url, from("bob", "10.0.0.1"));
  await until(() => refused.error !== undefined);
  assert.match(refused.error.message, /503/);
  assert.deepEqual(asked, ["slow", "ann"]);
  await Talk.begin(t, it.url, "c", from("bob", "10.0.0.2"));
  ann.socket.terminate();
  await until(() => counted(it, "sessions") === 1);
  await Talk.begin(t, it.url, "d", from("bob", "10.0.0.1"));
  await until(() => slow.error !== undefined, "a sign-in that takes too long is refused");
  assert.match(slow.error.message, /503/);
});

test("a user, and an address, is told of so many documents, over all sessions; one more waits, and its session is closed later", async (t) => {
  for (const limit of ["userDocuments", "addressDocuments"]) {
    const it = await begun(t, { address: { header: "x-real-ip" }, limits: { [limit]: 3, heldSeconds: 1 } });
    const from = (user, address) => ({ headers: { "x-user": user, "x-real-ip": address } });
    const second = limit === "userDocuments" ? from("ann", "10.0.0.2") : from("eve", "10.0.0.1");
    const [one, other, bob] = [await Talk.begin(t, it.url, "a", from("ann", "10.0.0.1")), await Talk.begin(t, it.url, "b", second), await Talk.begin(t, it.url, "c", from("bob", "10.0.0.3"))];
    const at = (doc, place = [0, 0]) => ({ at: place, do: "presence", doc, rev: 1 });
    for (const doc of ["d1", "d2"]) assert.equal((await one.ask(at(doc))).ok, "presence");
    assert.equal((await other.ask(at("d1"))).ok, "presence");
    other.send(at("d2"));
    await until(() => counted(it, `slowed_total\\{limit="${limit}"\\}`) === 1);
    assert.equal((await one.ask(at("d1", [1, 1]))).ok, "presence", "where he is already");
    assert.equal((await bob.ask(at("d2"))).ok, "presence");
    await one.ask(at("d2", null));
    await until(() => other.replies.length === 3);
    other.send({ do: "subscribe", doc: "d3", rev: 1 });
    assert.equal(await other.closed(), 4429);
    assert.equal(counted(it, `over_total\\{limit="${limit}"\\}`), 1);
    assert.deepEqual([one.code, bob.code], [null, null]);
    await one.ask(at("d4"));
    await it.close();
  }
});

test("whose messages are above the limit for long: of a user, or an address, the session that sends most is closed, and no other", async (t) => {
  for (const limit of ["userMessages", "addressMessages"]) {
    const it = await begun(t, { address: { header: "x-real-ip" }, limits: { [limit]: 20, heldSeconds: 1 } });
    const from = (user, address) => ({ headers: { "x-user": user, "x-real-ip": address } });
    const second = limit === "userMessages" ? from("eve", "10.0.0.2") : from("ann", "10.0.0.1");
    const [eve, quiet, bob] = [await Talk.begin(t, it.url, "e", from("eve", "10.0.0.1")), await Talk.begin(t, it.url, "q", second), await Talk.begin(t, it.url, "b", from("bob", "10.0.0.3"))];
    eve.send(...Array(2_000).fill({ do: "unsubscribe", doc: "d" }));
    await bob.ask({ do: "unsubscribe", doc: "d" });
    assert.equal(await eve.closed(), 4429);
    assert.ok(eve.replies.length < 2_000);
    assert.equal(counted(it, `over_total\\{limit="${limit}"\\}`), 1);
    assert.deepEqual([quiet.code, bob.code], [null, null]);
    await quiet.ask({ do: "unsubscribe", doc: "d" });
    await it.close();
  }
});

test("who is held again and again is closed, who keeps to the limit for a while isn't, and it is the one that sends most", () => {
  let now = 0;
  const account = new Account("user", { ...LIMITS, heldSeconds: 30 }, () => now);
  const [one, other] = [{ sent: 1 }, { sent: 2 }];
  for (const browser of [one, other]) account.browsers.add(/** @type {any} */ (browser));
  assert.deepEqual(account.hold(10), { isFirst: true });
  now = 10_900; // it was read for a moment
  assert.deepEqual(account.hold(10), { isFirst: false });
  now = 20_900 + 1_001;
  assert.deepEqual(account.hold(40), { isFirst: true });
  now += 30_000;
  assert.deepEqual(account.hold(1), { isFirst: false, greedy: other });
});

test("whose reads of older revisions take more than their share of a session's time is read later, then closed, and others' go on", async (t) => {
  const it = await begun(t, { limits: { userReading: 1, heldSeconds: 1 } });
  const [eve, bob] = [await Talk.begin(t, it.url, "e", as("eve")), await Talk.begin(t, it.url, "b", as("bob"))];
  eve.send({ do: "fetch", doc: "d", rev: 1 });
  const { reply } = await it.store.next();
  await pause(5_100); // the store takes so long for it, and that is more than may be taken at once
  reply(document("d", 1));
  await until(() => eve.replies.length === 2);
  eve.send({ do: "fetch", doc: "d", rev: 1 });
  await until(() => counted(it, 'slowed_total\\{limit="userReading"\\}') === 1);
  bob.send({ do: "fetch", doc: "b", rev: 1 });
  const { message, reply: give } = await it.store.next();
  assert.equal(message.doc, "b");
  give(document("b", 1));
  await until(() => bob.replies.length === 2);
  assert.equal(await eve.closed(), 4429);
  assert.deepEqual([it.store.asked.length, bob.code], [0, null]);
});

test("the time of a read is its user's and his address's, and they wait for what they owe", async (t) => {
  const it = await begun(t);
  const store = it.gateway.stores.get("s1");
  const held = [];
  const accounts = ["user", "address"].map((of) => new Account(/** @type {any} */ (of), { ...LIMITS, userReading: 1, addressReading: 1 }));
  const read = (doc, its) => store.fetch({ do: "fetch", doc, rev: 1 }, 0, () => {}, () => true, { user: doc, accounts: its, hold: (account, limit) => held.push(account.nameOf(limit)) });
  await until(() => store.isOpen && store.open.reader === 2);
  for (const { reading } of accounts) reading.take(100_000); // more than may be at once
  const before = accounts.map(({ reading }) => reading.owed);
  for (const { reading } of accounts) reading.take(-1_000 * before[1] - 1_000);
  assert.deepEqual(accounts.map(({ reading }) => reading.owed), [0, 0]);
  read("d", accounts);
  const { reply } = await it.store.next();
  await pause(200);
  reply(document("d", 1));
  for (const [index, of] of ["user", "address"].entries()) {
    const { reading } = accounts[index];
    reading.take(200_000);
    const [owes] = [accounts[index]];
    read("e", [owes]);
    await until(() => held.includes(`${of}Reading`));
    assert.equal(it.store.asked.length, 0);
    read("f", []);
    (await it.store.next(({ doc }) => doc === "f")).reply(document("f", 1));
    reading.take(-1_000_000);
    (await it.store.next(({ doc }) => doc === "e")).reply(document("e", 1));
  }
});

test("connections that nobody has signed in are so many of an address, also where nothing comes", async (t) => {
  const it = await begun(t, { limits: { addressUnsigned: 3 } });
  await Talk.begin(t, it.url, "a", as("ann")); // who is signed in isn't counted there
  const silent = Array.from({ length: 5 }, () => net.connect(it.port, "127.0.0.1").on("error", () => {}));
  t.after(() => silent.forEach((socket) => socket.destroy()));
  await until(() => silent.filter(({ closed }) => closed).length === 2);
  assert.equal(counted(it, 'over_total\\{limit="addressUnsigned"\\}'), 2);
  for (const socket of silent) socket.destroy();
  await until(() => silent.every(({ closed }) => closed));
  await until(async () => (await Promise.race([Talk.begin(t, it.url, "b", as("bob")).then(() => true, () => false), pause(1_000)])) === true, "another one");
});

test("where requests come by a proxy and no setting says where from, the log says so once", async (t) => {
  const it = await begun(t);
  for (const token of ["a", "b"]) await Talk.begin(t, it.url, token, { headers: { "x-user": "ann", "x-forwarded-for": "10.0.0.1" } });
  assert.equal(it.events.filter(({ event }) => event.startsWith("requests come by a proxy")).length, 1);
});

test("reads of older revisions are asked for by turns of users, few at once, and nobody's other reads wait", async (t) => {
  const it = await begun(t);
  const [eve, bob, ann] = [await Talk.begin(t, it.url, "e", as("eve")), await Talk.begin(t, it.url, "b", as("bob")), await Talk.begin(t, it.url, "a", as("ann"))];
  eve.send(...Array(6).fill({ do: "fetch", doc: "d", rev: 1 }));
  const first = [await it.store.next(), await it.store.next()];
  bob.send({ do: "fetch", doc: "b", rev: 1 });
  ann.send({ do: "fetch", doc: "a" });
  (await it.store.next(({ doc }) => doc === "a")).reply(document("a", 1));
  await until(() => ann.replies.length === 2);
  assert.equal(it.store.asked.length, 0);
  const order = [];
  for (let k = 0; k < 7; k += 1) {
    const { message, reply } = first.shift() ?? (await it.store.next());
    order.push(message.doc);
    reply(document(message.doc, 1));
  }
  assert.ok(order.indexOf("b") <= 4, order.join(" "));
  await until(() => eve.replies.length === 7 && bob.replies.length === 2);
});

test("a user creates so many documents, in all and within an hour; what is refused doesn't count", async (t) => {
  const it = await begun(t, { limits: { userCreations: 3, userCreationsHour: 2 } });
  it.store.isNowhere = (doc) => !it.store.made.has(doc);
  const ann = await Talk.begin(t, it.url, "a", as("ann"));
  const create = (doc) => ({ do: "create", doc, n: 1, ops: [] });
  const answer = async (reply) => {
    const { message, reply: give } = await it.store.next();
    give(reply ?? { doc: message.doc, n: 1, ok: "taken", rev: 1 });
  };
  for (const [doc, reply] of [["d1", undefined], ["d2", { code: 3, error: "BadOps" }], ["d2", undefined]]) {
    const due = ann.replies.length + 1;
    ann.send(create(doc));
    await answer(reply);
    await until(() => ann.replies.length === due);
  }
  assert.equal((await ann.ask(create("d3"))).code, 20, "two within an hour");
  assert.equal(counted(it, 'creations_refused_total\\{limit="hour"\\}'), 1);
  const bob = await Talk.begin(t, it.url, "b", as("bob"));
  bob.send(create("d3"));
  await answer();
  await until(() => bob.replies.length === 2);
  assert.equal(it.store.asked.length, 0);
});

test("how many documents a user has created is known after a start", async (t) => {
  const data = folderFor(t);
  const settings = { data, limits: { userCreations: 2 } };
  const create = (doc) => ({ do: "create", doc, n: 1, ops: [] });
  for (const [docs, codes] of [[["d1"], [undefined]], [["d2", "d3"], [undefined, 20]]]) {
    const it = await begun(t, settings);
    it.store.isNowhere = () => true;
    const ann = await Talk.begin(t, it.url, "a", as("ann"));
    for (const [index, doc] of docs.entries()) {
      ann.send(create(doc));
      if (codes[index] === undefined) {
        const { message, reply } = await it.store.next();
        reply({ doc: message.doc, n: 1, ok: "taken", rev: 1 });
      }
      await until(() => ann.replies.length === index + 2);
      assert.equal(ann.replies.at(-1).code, codes[index], doc);
    }
    if (docs.length > 1) assert.equal(counted(it, 'creations_refused_total\\{limit="all"\\}'), 1);
    await it.close();
  }
});
