// In which store a document is: with etcd, a stub of it and the program, and by a rule.

import assert from "node:assert/strict";
import http from "node:http";
import test from "node:test";
import { Etcd } from "../etcd.js";
import { EtcdLeases } from "../leases-etcd.js";
import { NAMING } from "../leases.js";
import { EtcdPlaces, RuledPlaces } from "../places.js";
import { Sweep } from "../sweep.js";
import { EtcdProgram, folderFor, needsEtcd } from "./programs.js";
import { FakeStore, Talk, gatewayFor, pause, taken, until } from "./talk.js";

const decoded = (text) => Buffer.from(text, "base64").toString();
const encoded = (text) => Buffer.from(text).toString("base64");

/** What of etcd's HTTP interface is used, by its documentation: keys, revisions and transactions. */
class FakeEtcd {
  kept = new Map(); // key -> { value, mod }
  revision = 1;

  constructor(test) {
    test.after(() => this.kill());
  }

  async start(port = 0) {
    this.server = http.createServer((request, response) => {
      let text = "";
      request.on("data", (part) => (text += part));
      request.on("end", () => {
        const answer = this[request.url.split("/").at(-1)](JSON.parse(text));
        response.end(JSON.stringify({ header: { revision: String(this.revision) }, ...answer }));
      });
    });
    await new Promise((resolve) => this.server.listen(port, "127.0.0.1", resolve));
    this.port = this.server.address().port;
    this.urls = [`http://127.0.0.1:${this.port}`];
  }

  async kill() {
    this.server.closeAllConnections?.();
    await new Promise((resolve) => this.server.close(resolve));
  }

  range({ key, range_end, limit = 0 }) {
    const [from, to] = [decoded(key), range_end && decoded(range_end)];
    const keys = [...this.kept.keys()].filter((it) => (to === undefined ? it === from : it >= from && it < to)).sort();
    const kvs = (limit > 0 ? keys.slice(0, limit) : keys).map((it) => ({ key: encoded(it), value: encoded(this.kept.get(it).value), mod_revision: String(this.kept.get(it).mod) }));
    return kvs.length === 0 ? {} : { kvs, count: String(keys.length) };
  }

  deleterange({ key, range_end }) {
    const { kvs = [] } = this.range({ key, range_end });
    for (const found of kvs) this.kept.delete(decoded(found.key));
    this.revision += 1;
    return {};
  }

  txn({ compare = [], success, failure }) {
    const holds = ({ key, target, create_revision, mod_revision }) => {
      const found = this.kept.get(decoded(key));
      return target === "CREATE" ? create_revision === 0 && found === undefined : String(found?.mod) === String(mod_revision);
    };
    const succeeded = compare.every(holds);
    const does = succeeded ? success : failure;
    if (does.some((it) => !("requestRange" in it))) this.revision += 1;
    const responses = does.map(({ requestPut, requestRange, requestDeleteRange }) => {
      if (requestRange) return { response_range: this.range(requestRange) };
      if (requestPut) this.kept.set(decoded(requestPut.key), { value: decoded(requestPut.value), mod: this.revision });
      else this.kept.delete(decoded(requestDeleteRange.key));
      return {};
    });
    return succeeded ? { succeeded, responses } : { responses };
  }
}

/** Places a document, as its creation does. */
async function placed(places, doc) {
  const store = await places.find(doc, true);
  if (places.isOpen(doc)) await places.place(doc, store).catch(() => {}); // another one was faster
  return places.again(doc);
}

const STORES = ["s1", "s2", "s3"].map((name) => ({ name, takesNew: true, isOpen: true }));

for (const [kind, needs, Program] of [["a stub of etcd", {}, FakeEtcd], ["etcd", needsEtcd, EtcdProgram]]) {
  const begun = async (t, stores = STORES) => {
    const program = new Program(t);
    await program.start();
    const etcd = () => {
      const it = new Etcd({ urls: program.urls });
      t.after(() => it.close());
      return it;
    };
    return { etcd, places: new EtcdPlaces({ etcd: etcd(), stores: () => stores }) };
  };
  const it = (name, test_) => test(`${kind}: ${name}`, needs, test_);

  it("only a creation places a document, once, whoever asks at the same time", async (t) => {
    const { places, etcd } = await begun(t);
    const others = new EtcdPlaces({ etcd: etcd(), stores: () => STORES });
    assert.equal(await places.find("d0", false), null);
    assert.equal(places.cached("d0"), undefined);
    const docs = Array.from({ length: 20 }, (_, index) => `d${index}`);
    const [one, other] = await Promise.all([places, others].map((them) => Promise.all(docs.map((doc) => placed(them, doc)))));
    assert.deepEqual(one, other);
    assert.deepEqual([...new Set(one)].sort(), ["s1", "s2", "s3"]);
    assert.equal(await others.find("d0", false), one[0]);
    assert.equal(places.cached("d0"), one[0]);
  });

  it("a document moves from a store that is full of documents, once, and new ones go elsewhere", async (t) => {
    const { places, etcd } = await begun(t);
    const others = new EtcdPlaces({ etcd: etcd(), stores: () => STORES });
    const before = await placed(places, "d");
    await others.find("d", false);
    const [one, other] = await Promise.all([places.move("d", before), others.move("d", before)]);
    assert.equal(one, other);
    assert.notEqual(one, before);
    assert.equal(await places.again("d"), one);
    for (let k = 0; k < 6; k += 1) assert.notEqual(await places.find(`e${k}`, true), before);
    for (const { name } of STORES) await places.move("f", name);
    assert.equal(await places.move("d", one), null, "all are full");
  });

  it("a creation's place and lease are one transaction, and are taken back in one, but for a place that is another creation's", async (t) => {
    const { places, etcd } = await begun(t, [STORES[0]]);
    const client = etcd();
    const book = (pool, its) => new EtcdLeases({ etcd: etcd(), store: "s1", pool: async () => [`${pool}-0`], first: 1, term: 1_000, now: () => 0, places: its });
    const keys = async () => [...(await client.under("place/")), ...(await client.under("lease/")), ...(await client.under("name/")), ...(await client.under("maker/"))].map(({ key }) => key);
    const one = book("g1", places);
    await places.find("d", true);
    assert.deepEqual(await keys(), []);
    const ann = await one.lend("d", "ann", true);
    assert.deepEqual(await keys(), ["place/d", "lease/s1/d/ann", "name/s1/d/g1-0"]);
    one.release("d", "ann", ann, true);
    await until(async () => (await keys()).length === 0);
    // a second creation of the same document, from another gateway
    await places.find("d", true);
    const again = await one.lend("d", "ann", true);
    const others = new EtcdPlaces({ etcd: etcd(), stores: () => STORES });
    assert.equal(await others.find("d", true), "s1");
    const other = book("g2", others);
    const bob = await other.lend("d", "bob", true);
    one.release("d", "ann", again, true);
    await until(async () => (await keys()).length === 3);
    assert.deepEqual(await keys(), ["place/d", "lease/s1/d/bob", "name/s1/d/g2-0"]);
    bob.begin();
    other.depart("bob", ["d"]);
    bob.settle(1, "refused");
    other.release("d", "bob", bob, true); // he has gone meanwhile
    await until(async () => (await keys()).length === 0);
    // whoever has made it is counted
    await others.find("d", true);
    await other.lend("d", "bob", true);
    await others.created("d", "s1", "bob");
    await others.created("d", "s1", "bob");
    assert.deepEqual([await places.countOf("bob"), await places.countOf("bo"), await places.countOf("ann")], [1, 0, 0]);
  });

  it("what creations left that were never made is swept away, and nothing else", async (t) => {
    const { etcd } = await begun(t);
    const client = etcd();
    const put = (key, value = "s1") => client.transact([], [{ key, value }]);
    const docs = Array.from({ length: 5 }, (_, index) => `d${index}`);
    for (const doc of [...docs, "there", "late", "away"]) {
      await put(`place/${doc}`, doc === "away" ? "s9" : "s1");
      await put(`lease/s1/${doc}/ann`, "{}");
      await put(`name/s1/${doc}/g-0`, "ann");
      await put(`maker/ann/${doc}`, "");
    }
    await put("lease/s2/d0/ann", "{}"); // of a move
    const asked = new Map();
    const standing = async (doc) => {
      asked.set(doc, (asked.get(doc) ?? 0) + 1);
      if (doc === "away") throw new Error("the store isn't there");
      return doc === "there" || (doc === "late" && asked.get(doc) > 1) ? "there" : "nowhere";
    };
    const stores = new Map(["s1", "s2"].map((name) => [name, { standing }]));
    assert.equal(await new Sweep({ etcd: client, stores, wait: 50, pause: 0 }).run(), 6);
    const left = (await Promise.all(["place/", "lease/", "name/"].map((text) => client.under(text)))).flat().map(({ key }) => key);
    assert.deepEqual(left, ["away", "late", "there"].map((doc) => `place/${doc}`).concat(...["lease", "name"].map((kind) => ["away", "late", "there"].map((doc) => `${kind}/s1/${doc}/${kind === "lease" ? "ann" : "g-0"}`))));
    assert.deepEqual((await client.under("maker/")).map(({ key }) => key), ["away", "late", "there"].map((doc) => `maker/ann/${doc}`));
    assert.equal(await new Sweep({ etcd: client, stores, wait: 50, pause: 0 }).run(), 0);
  });

  it("stores that take nothing new, or aren't there, are passed over", async (t) => {
    const { places } = await begun(t, [{ name: "s1", takesNew: false, isOpen: true }, { name: "s2", takesNew: true, isOpen: false }, { name: "s3", takesNew: true, isOpen: true }]);
    for (let k = 0; k < 5; k += 1) assert.equal(await places.find(`d${k}`, true), "s3");
  });

  it("the list has all places in order, in pages", async (t) => {
    const { places } = await begun(t);
    const docs = ["a", "a-", "a.b", "a0", "b", "z"];
    for (const doc of docs) await placed(places, doc);
    assert.deepEqual(await places.list("", 10), docs);
    assert.deepEqual(await places.list("", 2), ["a", "a-"]);
    assert.deepEqual(await places.list("a-", 3), ["a.b", "a0", "b"]);
    assert.deepEqual(await places.list("z", 3), []);
  });

  it("documents that a store had are taken in, and those that are elsewhere are told", async (t) => {
    const { places } = await begun(t);
    const elsewhere = await placed(places, "d7");
    const docs = Array.from({ length: 50 }, (_, index) => `d${index}`);
    const store = elsewhere === "s1" ? "s2" : "s1";
    assert.deepEqual(await places.take(docs, store), ["d7"]);
    assert.deepEqual(await places.take(docs, store), ["d7"], "again");
    assert.equal(await places.find("d49", false), store);
  });

  it("leases of two gateways: names of their own, and a holder keeps his name at the other", async (t) => {
    const { etcd } = await begun(t);
    const clock = { now: 0 };
    const book = (pool, more) => new EtcdLeases({ etcd: etcd(), store: "s1", pool: async () => [`${pool}-0`, `${pool}-1`], first: 2, term: 1_000, now: () => clock.now, ...more });
    const [one, other] = [book("g1"), book("g2")];
    const [ann, bob] = await Promise.all([one.lend("d", "ann"), other.lend("d", "bob")]);
    assert.deepEqual([ann.name.slice(0, 2), bob.name.slice(0, 2), ann.next, bob.epoch], ["g1", "g2", 1, 1]);
    const there = await other.lend("d", "ann");
    assert.deepEqual([there.name, there.epoch, there.next], [ann.name, 1, undefined]);
    assert.equal(one.lend("d", "ann"), ann, "without etcd");
    // the same holder at both at the same time, and all names of one gateway
    const same = await Promise.all([one.lend("e", "eve"), other.lend("e", "eve"), one.lend("e", "dan"), one.lend("e", "kim")]);
    assert.equal(same[0].name, same[1].name);
    assert.equal(new Set(same.slice(1).map((it) => it?.name)).size, 3);
    const full = await one.lend("d", "joe").then(() => one.lend("d", "max"));
    assert.equal(full, undefined, "both names of its own pool are lent there");
    clock.now = 1_001;
    const anew = await one.lend("d", "max");
    assert.deepEqual([anew.epoch, anew.next], [2, undefined]);
    const gone = anew.name === ann.name ? "ann" : "joe";
    assert.notEqual((await other.lend("d", gone))?.name, anew.name, "who had it has another one now");
  });
}

test("a user sends under so many names of a store at a time, also with leases in etcd", async (t) => {
  const program = new FakeEtcd(t);
  await program.start();
  const clock = { now: 0 };
  const pool = async () => Array.from({ length: 40 }, (_, index) => `g-${index}`);
  const book = new EtcdLeases({ etcd: new Etcd(program), store: "s1", pool, first: 40, term: 1_000_000, now: () => clock.now, naming: { ...NAMING, most: 1 } });
  const ann = await book.lend("d", "ann/a");
  assert.equal((await book.lend("e", "ann/a")).name, ann.name);
  const others = [];
  for (let k = 0; !others.includes(ann.name); k += 1) others.push((await book.lend("f", `u${k}/a`)).name);
  assert.equal(await book.lend("f", "ann/a"), undefined);
  ann.begin();
  clock.now += 2_000;
  assert.equal(await book.lend("f", "ann/a"), undefined, "a command is on its way");
  ann.settle(1, "taken");
  const other = await book.lend("f", "ann/a");
  assert.notEqual(other.name, ann.name);
  assert.equal(await book.lend("d", "ann/a"), undefined);
  clock.now += 2_000;
  assert.equal(await book.lend("d", "ann/a"), ann);
});

test("a lease that another gateway uses isn't lent anew", async (t) => {
  const program = new FakeEtcd(t);
  await program.start();
  const clock = { now: 0 };
  const book = (name) => new EtcdLeases({ etcd: new Etcd(program), store: "s1", pool: async () => [name], first: 1, term: 1_000, now: () => clock.now });
  const [one, other] = [book("g1"), book("g2")];
  await one.lend("d", "ann");
  clock.now = 900;
  await other.lend("d", "ann");
  clock.now = 1_100;
  assert.equal(await one.lend("d", "bob"), undefined);
  clock.now = 1_901;
  assert.equal((await one.lend("d", "bob")).epoch, 2);
});

test("a rule by the beginning of names, and a list of what was created or imported", async (t) => {
  const folder = folderFor(t);
  const rule = [{ prefix: "", store: "s1" }, { prefix: "team.", store: "s2" }, { prefix: "team.x", store: "s3" }];
  const places = new RuledPlaces({ rule, folder });
  assert.deepEqual(["team", "team.a", "team.xy"].map((doc) => places.cached(doc)), ["s1", "s2", "s3"]);
  assert.equal(new RuledPlaces({ rule: rule.slice(1), folder: folderFor(t) }).cached("d"), null);
  await Promise.all(["b", "a", "b"].map((doc) => places.created(doc)));
  assert.deepEqual(await places.take(["team.c", "d"], "s1"), ["team.c"]);
  await pause(50);
  await places.close();
  assert.deepEqual(await new RuledPlaces({ rule, folder }).list("a", 5), ["b", "d"]);
});

// Through gateways.

async function clustered(t, count = 2) {
  const etcd = new FakeEtcd(t);
  await etcd.start();
  const stores = [];
  for (let k = 1; k <= count; k += 1) stores.push(await FakeStore.begin(t));
  for (const store of stores) store.isNowhere = (doc) => !store.made.has(doc);
  const addresses = stores.map((store, index) => ({ name: `s${index + 1}`, ...store.address }));
  const begin = (name, more) => gatewayFor(t, { name, stores: addresses, etcd: { urls: etcd.urls }, writers: 2, names: 4, ...more });
  return { etcd, stores, begin, addresses };
}

const create = (doc) => ({ do: "create", doc, n: 1, ops: [] });
const isOf = (doc) => ({ message }) => message.doc === doc;
const whichOf = async (stores, doc) => {
  await until(() => stores.some(({ asked }) => asked.some(isOf(doc))));
  const store = stores.find(({ asked }) => asked.some(isOf(doc)));
  return { store, ...(await store.next((message) => message.doc === doc)) };
};

test("through two gateways a document is in one store, and what has no place asks none", async (t) => {
  const { stores, begin } = await clustered(t);
  const [one, other] = [await begin("g1"), await begin("g2")];
  const [ann, bob] = [await Talk.begin(t, one.url, "ann"), await Talk.begin(t, other.url, "bob")];
  assert.deepEqual(await bob.ask({ do: "fetch", doc: "d" }), { code: 6, error: "NoDocument" });
  assert.deepEqual(await bob.ask({ do: "lease", doc: "d" }), { code: 6, error: "NoDocument" });
  assert.ok(stores.every(({ asked }) => asked.length === 0));
  ann.send(create("d"));
  const { store, source, message, reply } = await whichOf(stores, "d");
  assert.match(source, /^g1-/);
  reply(taken(message, 1));
  await until(() => ann.replies.length === 2);
  bob.send({ do: "fetch", doc: "d" });
  const asked = await whichOf(stores, "d");
  assert.equal(asked.store, store);
  asked.reply({ doc: "d", ok: "doc", ops: [], rev: 1 });
  await until(() => bob.replies.length === 4);
  const listed = await (await fetch(`http://127.0.0.1:${other.port}/docs`)).json();
  assert.deepEqual(listed, { docs: ["d"], next: null });
});

test("a browser that comes to another gateway keeps its name there, in a session of a guest", async (t) => {
  const { stores, begin } = await clustered(t, 1);
  const [one, other] = [await begin("g1"), await begin("g2")];
  const ann = await Talk.begin(t, one.url, "ann");
  ann.send(create("d"));
  const first = await stores[0].next();
  first.reply(taken(first.message, 1));
  await until(() => ann.replies.length === 2);
  const lease = await ann.ask({ do: "lease", doc: "d" });
  assert.equal(lease.n, 2);
  ann.socket.terminate();
  const again = await Talk.begin(t, other.url, "ann");
  const { n, ...there } = await again.ask({ do: "lease", doc: "d" });
  assert.deepEqual({ ...there, n: 2 }, lease);
  assert.equal(n, undefined, "another gateway doesn't know the next number");
  again.send({ do: "edit", doc: "d", n: 2, base: 1, ops: [] });
  const second = await stores[0].next();
  assert.equal(second.source, first.source);
  second.reply(taken(second.message, 2));
  await until(() => again.replies.length === 3);
  assert.equal((await again.ask({ do: "lease", doc: "d" })).n, 3);
  again.send(create("d"));
  const creation = await stores[0].next();
  assert.equal(creation.source, first.source, "what was perhaps its own creation is the store's to answer");
  creation.reply(taken(creation.message, 1, "again"));
  await until(() => again.replies.length === 5);
  const back = await Talk.begin(t, one.url, "ann");
  assert.equal((await back.ask({ do: "lease", doc: "d" })).n, undefined, "the first gateway doesn't know what was done there");
});

test("a creation that a store refuses, as it is full of documents, goes to the next one, and others find it there", async (t) => {
  const { stores, begin } = await clustered(t);
  const [one, other] = [await begin("g1"), await begin("g2")];
  const [ann, bob] = [await Talk.begin(t, one.url, "ann"), await Talk.begin(t, other.url, "bob")];
  ann.send(create("d"));
  const refused = await whichOf(stores, "d");
  bob.send({ do: "fetch", doc: "d" });
  const early = await whichOf(stores, "d");
  refused.reply({ code: 20, error: "TooManyDocuments" });
  const second = await whichOf(stores, "d");
  assert.notEqual(second.store, refused.store);
  second.reply(taken(second.message, 1));
  await until(() => ann.replies.length === 2);
  assert.equal(ann.replies[1].ok, "taken");
  early.reply({ code: 6, error: "NoDocument" });
  const late = await whichOf(stores, "d");
  assert.equal(late.store, second.store, "a place that has changed is asked for again");
  late.reply({ doc: "d", ok: "doc", ops: [], rev: 1 });
  await until(() => bob.replies.length === 2);
});

test("a creation that is refused leaves nothing in etcd, and one of what is there leaves the place alone", async (t) => {
  const { etcd, stores, begin } = await clustered(t, 1);
  const { url, port, gateway } = await begin("g1", { authorize: ({ headers }) => headers["x-user"] ?? "ann" });
  const sessions = () => Number(/^richd_gateway_sessions (\d+)$/m.exec(gateway.metricsText())[1]);
  const ann = await Talk.begin(t, url, "ann");
  const kept = () => [...etcd.kept.keys()].filter((key) => !key.startsWith("richd/pool/"));
  let replies = 1;
  for (const code of [3, 4, 9, 14, 15, 16, 17, 20]) {
    ann.send(create("d"), { do: "edit", doc: "d", n: 2, base: 1, ops: [] });
    const [creation, edit] = [await stores[0].next(), await stores[0].next()];
    assert.equal(kept().length, 3);
    creation.reply({ code, error: "Refused" });
    edit.reply({ code: 6, error: "NoDocument" });
    replies += 2;
    await until(() => ann.replies.length === replies);
    assert.deepEqual(ann.replies.slice(-2).map((reply) => reply.code), [code, 6]);
    await until(() => kept().length === 0, `nothing is left after ${code}`);
  }
  assert.deepEqual(await (await fetch(`http://127.0.0.1:${port}/docs`)).json(), { docs: [], next: null });
  // whoever has gone meanwhile, also under a token that comes again, or before anything was sent
  for (const comesAgain of [false, true]) {
    const eve = await Talk.begin(t, url, `eve${comesAgain}`);
    eve.send(create("d"));
    const creation = await stores[0].next();
    eve.socket.terminate();
    await until(() => sessions() === 1);
    if (comesAgain) await (await Talk.begin(t, url, `eve${comesAgain}`)).ask({ do: "lease", doc: "d" });
    creation.reply({ code: 3, error: "BadOps" });
    await until(() => kept().length === 0, `nothing is left of who has gone, ${comesAgain}`);
  }
  const lend = gateway.stores.get("s1").leases.lend;
  for (const when of ["while it is written", "once it is written"]) {
    const eve = await Talk.begin(t, url, "eve");
    gateway.stores.get("s1").leases.lend = function (...words) {
      const lent = lend.apply(this, words);
      const end = () => eve.socket.terminate();
      if (when === "while it is written") end();
      return lent instanceof Promise ? lent.then(async (lease) => (end(), await pause(50), lease)) : lent;
    };
    eve.send(create("d"));
    await until(() => eve.code !== null);
    gateway.stores.get("s1").leases.lend = lend;
    await pause(200);
    await until(() => kept().length === 0, `nothing is left of what wasn't sent, ${when}`);
    assert.equal(stores[0].asked.length, 0);
  }
  // of two who create the same at the same time one is counted
  const bob = await Talk.begin(t, url, "bob", { headers: { "x-user": "bob" } });
  for (const talk of [ann, bob]) talk.send(create("d"));
  const [first, second] = [await stores[0].next(), await stores[0].next()];
  first.reply(taken(first.message, 1));
  second.reply({ code: 7, error: "Exists" });
  await until(() => ann.replies.length === replies + 1 && bob.replies.length === 2);
  const winner = ann.replies.at(-1).ok === "taken" ? "ann" : "bob";
  await until(() => kept().length === 4);
  assert.deepEqual(kept().filter((key) => !key.includes("/name/")).sort(), [`richd/lease/s1/d/${winner}/${winner}`, `richd/maker/${winner}/d`, "richd/place/d"]);
});

test("with etcd away known places are served, others are to be sent again, and all goes on when it is back", async (t) => {
  const { etcd, stores, begin } = await clustered(t);
  const { url, events } = await begin("g1");
  const ann = await Talk.begin(t, url, "ann");
  ann.send(create("d"));
  const first = await whichOf(stores, "d");
  first.reply(taken(first.message, 1));
  await until(() => ann.replies.length === 2);
  await etcd.kill();
  ann.send({ do: "edit", doc: "d", n: 2, base: 1, ops: [] });
  const second = await whichOf(stores, "d");
  second.reply(taken(second.message, 2));
  await until(() => ann.replies.length === 3);
  for (const message of [create("e"), { do: "fetch", doc: "e" }]) assert.deepEqual(await ann.ask(message), { code: 22, error: "NoMemory" });
  await until(() => events.some(({ event }) => event === "etcd is away"));
  const dan = await Talk.begin(t, url, "dan");
  assert.deepEqual(await dan.ask(create("d")), { code: 22, error: "NoMemory" }, "it may be his own, at another gateway");
  assert.deepEqual(await dan.ask({ do: "lease", doc: "d" }), { code: 22, error: "NoMemory" });
  await etcd.start(etcd.port);
  ann.send(create("e"));
  const third = await whichOf(stores, "e");
  third.reply(taken(third.message, 1));
  await until(() => ann.replies.length === 6);
  assert.ok(events.some(({ event }) => event === "etcd is back"));
});

test("a store is added while all runs, and a place in a store that isn't known yet is to be asked for again", async (t) => {
  const { stores, begin, addresses } = await clustered(t, 2);
  const [all, some] = [await begin("g1", { stores: addresses.slice(1) }), await begin("g2", { stores: addresses.slice(0, 1) })];
  const [ann, bob] = [await Talk.begin(t, all.url, "ann"), await Talk.begin(t, some.url, "bob")];
  ann.send(create("d"));
  const { message, reply } = await stores[1].next();
  reply(taken(message, 1));
  await until(() => ann.replies.length === 2);
  assert.equal((await bob.ask({ do: "fetch", doc: "d" })).code, 22);
  some.gateway.addStore(addresses[1]);
  bob.send({ do: "fetch", doc: "d" });
  (await stores[1].next()).reply({ doc: "d", ok: "doc", ops: [], rev: 1 });
  await until(() => bob.replies.length === 3);
  some.gateway.addStore({ ...addresses[0], new: false });
  bob.send(create("e"));
  await stores[1].next();
});

test("the list has what a user may read, in pages", async (t) => {
  const { stores, begin } = await clustered(t, 1);
  const { port, url } = await begin("g1", { authorize: () => "ann", can: (user, doc, action) => action !== "read" || doc.startsWith("a") });
  const ann = await Talk.begin(t, url, "token");
  for (const doc of ["a1", "a2", "a3", "b1", "a4"]) {
    ann.send(create(doc));
    const { message, reply } = await stores[0].next();
    reply(taken(message, 1));
  }
  await until(() => ann.replies.length === 6);
  const page = async (query) => (await fetch(`http://127.0.0.1:${port}/docs${query}`)).json();
  assert.deepEqual(await page("?limit=2"), { docs: ["a1", "a2"], next: "a2" });
  assert.deepEqual(await page("?after=a2&limit=2"), { docs: ["a3", "a4"], next: "a4" });
  assert.deepEqual(await page("?after=a4&limit=2"), { docs: [], next: null });
  assert.equal((await fetch(`http://127.0.0.1:${port}/docs?limit=no`)).status, 400);
});
