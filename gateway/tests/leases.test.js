// Which name a holder has in a document.

import assert from "node:assert/strict";
import { appendFileSync, readFileSync, writeFileSync } from "node:fs";
import { open } from "node:fs/promises";
import path from "node:path";
import test from "node:test";
import { Leases, NAMING } from "../leases.js";
import { folderFor } from "./programs.js";
import { FakeStore, Talk, gatewayFor, pause, taken, until } from "./talk.js";

const DAY = 86_400_000;
const NAMES = ["p0", "p1", "p2"];

function booked(t, settings) {
  const file = path.join(folderFor(t), "leases");
  const clock = { now: 0 };
  const begin = (more) => {
    const book = new Leases({ file, names: NAMES, first: 2, term: 7 * DAY, now: () => clock.now, ...settings, ...more });
    t.after(() => book.close());
    return book;
  };
  return { file, clock, begin, book: begin() };
}

const shown = ({ name, epoch, next }) => ({ name, epoch, next });

test("a holder keeps a name in a document, and others have others there", async (t) => {
  const { book } = booked(t);
  const [ann, bob] = [await book.lend("d", "ann"), await book.lend("d", "bob")];
  assert.notEqual(ann.name, bob.name);
  assert.equal(await book.lend("d", "ann"), ann);
  assert.deepEqual(shown(ann), { name: ann.name, epoch: 1, next: 1 });
});

test("other documents begin with other names, those that have sessions first", async (t) => {
  const { book } = booked(t);
  const first = new Set();
  for (let k = 0; k < 20; k += 1) first.add((await book.lend(`d${k}`, "ann")).name);
  assert.deepEqual([...first].sort(), ["p0", "p1"]);
});

const FIVE = ["p0", "p1", "p2", "p3", "p4"];

test("one user's documents share a few names, and under so many he sends at a time at one store", async (t) => {
  const { clock, book } = booked(t, { names: FIVE, first: 5, naming: { ...NAMING, most: 2 } });
  const names = async (docs, holder) => Promise.all(docs.map(async (doc) => (await book.lend(doc, holder)).name));
  const [own] = await names(["d0"], "ann/a");
  assert.deepEqual(new Set(await names(["d1", "d2", "d3"], "ann/a")), new Set([own]));
  const [second] = await names(["d0"], "ann/b");
  assert.notEqual(second, own);
  // others have both names in a third document
  const others = [];
  for (let k = 0; !others.includes(own) || !others.includes(second); k += 1) others.push(...(await names(["e"], `u${k}/a`)));
  if (others.length === FIVE.length) return t.skip("the names of others are all of them");
  assert.equal(book.lend("e", "ann/a"), undefined);
  assert.notEqual(book.reserve("e", "ann/c"), undefined, "who only asks isn't counted");
  book.depart("ann/c", ["e"]);
  clock.now += 2_000;
  const third = await book.lend("e", "ann/a");
  assert.ok(![own, second].includes(third.name));
  await names(["d0"], "ann/b");
  assert.equal(book.lend("d0", "ann/a"), undefined, "a lease that is there is used later, too");
  clock.now += 1_000;
  await names(["d0"], "ann/b");
  third.begin();
  clock.now += 1_500;
  assert.equal(book.lend("d0", "ann/a"), undefined, "what is on its way counts, however long");
  third.settle(1, "taken");
  assert.equal((await book.lend("d0", "ann/a")).name, own);
  assert.equal((await book.lend("d9", "bob/a")).epoch, 1, "and nobody else waits for her");
});

test("a lease is on the disk before it is given, and is there after a start, without a number", async (t) => {
  const { file, begin, book } = booked(t);
  const ann = await book.lend("d", "ann");
  assert.equal(readFileSync(file, "utf8"), `["d","ann","${ann.name}",1,0,false]\n`);
  appendFileSync(file, '["d","bob","p'); // a stop in the middle of a line
  const again = begin();
  assert.deepEqual(shown(await again.lend("d", "ann")), { name: ann.name, epoch: 1, next: undefined });
});

test("a name is lent anew only where all are lent there, and after the term, with the next epoch", async (t) => {
  const { clock, begin, book } = booked(t);
  const names = [];
  for (const holder of ["ann", "bob", "eve"]) {
    names.push((await book.lend("d", holder)).name);
    clock.now += DAY;
  }
  assert.equal(book.lend("d", "dan"), undefined);
  clock.now = 7 * DAY;
  assert.equal(book.lend("d", "dan"), undefined, "the term isn't over");
  clock.now += 1;
  const dan = await book.lend("d", "dan");
  assert.deepEqual(shown(dan), { name: names[0], epoch: 2, next: undefined });
  assert.equal(book.lend("d", "ann"), undefined, "hers is gone");
  const again = begin();
  assert.deepEqual(shown(await again.lend("d", "dan")), { name: names[0], epoch: 2, next: undefined });
  assert.equal(again.lend("d", "ann"), undefined);
});

test("a lease that is used stays, and so does one with a command on its way", async (t) => {
  const { clock, book } = booked(t);
  for (const holder of ["ann", "bob", "eve"]) await book.lend("d", holder);
  clock.now = 5 * DAY;
  await book.lend("d", "ann");
  (await book.lend("d", "bob")).used = 0;
  (await book.lend("d", "bob")).begin();
  clock.now = 7 * DAY + 1;
  assert.equal((await book.lend("d", "dan")).epoch, 2, "eve's");
  assert.equal(book.lend("d", "kim"), undefined);
});

test("those who ask at the same time get names of their own, and one asks for one", async (t) => {
  const { book } = booked(t);
  const asked = [book.lend("d", "ann"), book.lend("d", "ann"), book.lend("d", "bob"), book.lend("d", "eve")];
  const [one, same, bob, eve] = await Promise.all(asked);
  assert.equal(one, same);
  assert.equal(new Set([one.name, bob.name, eve.name]).size, 3);
});

test("a lease under which nothing was taken is given back, and its name is new for the next one", async (t) => {
  const { book, begin } = booked(t);
  const ann = await book.lend("d", "ann");
  book.release("d", "ann", ann);
  assert.equal(book.has("d", "ann"), false);
  assert.deepEqual(shown(await book.lend("d", "bob")), shown(ann));
  const bob = await book.lend("d", "bob");
  bob.begin();
  book.release("d", "bob", bob);
  bob.settle(1, "taken");
  book.release("d", "bob", bob);
  assert.equal(book.has("d", "bob"), true);
  await pause(50);
  const again = begin();
  assert.deepEqual([again.has("d", "ann"), again.has("d", "bob")], [false, true]);
});

test("a lease that its holder was told stays his, though his creation found the document there", async (t) => {
  const store = await FakeStore.begin(t);
  const { url } = await gatewayFor(t, { stores: [{ name: "s1", ...store.address }] });
  const [ann, bob] = [await Talk.begin(t, url, "ann"), await Talk.begin(t, url, "bob")];
  const told = await ann.ask({ do: "lease", doc: "d" });
  ann.send({ do: "create", doc: "d", n: 1, ops: [] });
  (await store.next()).reply({ code: 7, error: "Exists" });
  await until(() => ann.replies.length === 3);
  const { lease } = await bob.ask({ do: "lease", doc: "d" });
  assert.notEqual(lease, told.lease);
  ann.send({ do: "edit", doc: "d", n: 1, base: 1, ops: [] });
  const { source, message, reply } = await store.next();
  assert.equal(source, told.lease); // else what has no reply at a cut would be in doubt
  reply(taken(message, 2));
  await until(() => ann.replies.length === 4);
  assert.deepEqual(await ann.ask({ do: "lease", doc: "d" }), { ...told, n: 2 });
});

test("a lease that can't be written isn't given", async (t) => {
  const { book, file } = booked(t);
  await book.lend("d", "ann");
  await book.close();
  await assert.rejects(async () => book.lend("d", "bob"));
  assert.equal(readFileSync(file, "utf8").split("\n").length, 2);
});

/** Opens files on a disk that has room for so many bytes more. */
function smallDisk(room) {
  const disk = { room, open: async (file, flags) => {
    const handle = await open(file, flags);
    const refused = () => Object.assign(new Error("ENOSPC: no space left on device"), { code: "ENOSPC" });
    return {
      write: async (bytes, from, length, place) => {
        const most = Math.min(length, disk.room);
        if (most === 0) throw refused();
        disk.room -= most;
        return handle.write(bytes, from, most, place);
      },
      truncate: async (length) => {
        if (disk.isBroken) throw refused();
        disk.room += (await handle.stat()).size - length;
        return handle.truncate(length);
      },
      datasync: () => handle.datasync(),
      close: () => handle.close(),
    };
  } };
  return disk;
}

test("on a full disk no lease is given, what was written of one is taken back, and what is given then is kept", async (t) => {
  for (const isBroken of [false, true]) {
    const disk = smallDisk(40);
    let failures = 0;
    const { book, file, begin } = booked(t, { open: disk.open, onFailure: () => (failures += 1) });
    const ann = await book.lend("d", "ann");
    disk.isBroken = isBroken;
    const kept = readFileSync(file, "utf8");
    for (const holder of ["bob", "eve"]) await assert.rejects(async () => book.lend("d", holder), /ENOSPC/);
    assert.equal(failures, 2);
    assert.equal(book.has("d", "bob"), false);
    if (!isBroken) assert.equal(readFileSync(file, "utf8"), kept);
    Object.assign(disk, { room: 10_000, isBroken: false });
    const [bob, eve] = [await book.lend("d", "bob"), await book.lend("d", "eve")];
    await book.close();
    const again = begin();
    assert.deepEqual(["ann", "bob", "eve"].map((holder) => again.has("d", holder)), [true, true, true]);
    assert.deepEqual([await again.lend("d", "ann"), await again.lend("d", "bob"), await again.lend("d", "eve")].map(({ name }) => name), [ann, bob, eve].map(({ name }) => name));
  }
});

test("a lease that is there is used on a full disk until its term by the file is over", async (t) => {
  const disk = smallDisk(60);
  const { book, clock } = booked(t, { open: disk.open });
  const ann = await book.lend("d", "ann");
  disk.room = 0;
  clock.now = 2 * DAY;
  assert.equal(await book.lend("d", "ann"), ann);
  await pause(50);
  assert.equal(ann.used, 0);
  clock.now = 7 * DAY + 1;
  await assert.rejects(async () => book.lend("d", "ann"), /ENOSPC/);
  disk.room = 1_000;
  assert.equal(await book.lend("d", "ann"), ann);
  assert.equal(ann.used, clock.now);
});

test("lines that are none are left out, and a gateway lends new names then", async (t) => {
  const lines = ['["d","ann","p0",1,0,false]', '["d","bob","p["e","cat","p1",1,0,false]', '["d","eve","p1",0,0,false]', '["d","dan","p1",1,0,"no"]', '{"d":1}', ""];
  const { file, begin, book } = booked(t);
  await book.close();
  writeFileSync(file, lines.join("\n") + '["d","kim","p2",1,0,false]'); // the last one has no end
  const again = begin();
  assert.deepEqual(["ann", "bob", "eve", "dan", "kim"].map((holder) => again.has("d", holder)), [true, false, false, false, false]);
  const { store, begin: beginGateway, url, close, data } = await begun(t);
  const { lease } = await written(store, await Talk.begin(t, url, "ann"));
  await close();
  appendFileSync(path.join(data, "leases-s1"), '["d","bo\n');
  const after = await beginGateway();
  assert.deepEqual(after.events.map(({ event }) => event).filter((event) => event.includes("damaged")), ["a file of leases is damaged, so all names are new"]);
  assert.equal((await (await Talk.begin(t, after.url, "ann")).ask({ do: "lease", doc: "d" })).lease, lease);
  const other = (await (await Talk.begin(t, after.url, "bob")).ask({ do: "lease", doc: "d" })).lease;
  assert.notEqual(other.split("-")[1], lease.split("-")[1]);
});

test("a creation is answered once it is listed on the disk, and else by 22", async (t) => {
  const { store, url, gateway, data } = await begun(t);
  const ann = await Talk.begin(t, url, "ann");
  const { places } = gateway;
  const created = places.created.bind(places);
  let isFull = true;
  places.created = (...words) => (isFull ? Promise.reject(new Error("ENOSPC")) : created(...words));
  const create = { do: "create", doc: "d", n: 1, ops: [] };
  store.isNowhere = () => true;
  for (const ok of ["taken", "again"]) {
    ann.send(create);
    const { message, reply } = await store.next();
    reply(taken(message, 1, ok));
    await until(() => ann.replies.length === (ok === "taken" ? 2 : 3));
    isFull = false;
  }
  assert.deepEqual(ann.replies.slice(1).map(({ code, ok }) => code ?? ok), [22, "again"]);
  assert.equal(readFileSync(path.join(data, "documents"), "utf8"), '["d","anybody"]\n');
});

test("the next number is known as long as each command's reply came", async (t) => {
  const { book } = booked(t);
  const lease = await book.lend("d", "ann");
  const goes = (n, result) => (lease.begin(), lease.settle(n, result), lease.next);
  assert.equal(goes(1, "refused"), 1);
  assert.equal(goes(1, "taken"), 2);
  assert.equal(goes(1, "again"), 2);
  assert.equal(goes(2, "cut"), undefined);
  assert.equal(goes(2, "again"), undefined);
  assert.equal(goes(3, "taken"), 4);
});

// Through a gateway.

test("a document that is nowhere has no leases, and a creation that is refused leaves none", async (t) => {
  const { store, url, gateway } = await begun(t);
  store.isNowhere = (doc) => doc === "nowhere";
  const ann = await Talk.begin(t, url, "ann");
  const { leases } = gateway.stores.get("s1");
  for (const message of [{ do: "lease", doc: "nowhere" }, edit(1, "nowhere"), { do: "undo", doc: "nowhere", n: 1 }]) {
    assert.deepEqual(await ann.ask(message), { code: 6, error: "NoDocument" });
  }
  ann.send({ do: "create", doc: "nowhere", n: 1, ops: [] });
  const creation = await store.next();
  assert.equal(leases.has("nowhere", "anybody/ann"), true);
  creation.reply({ code: 20, error: "TooManyDocuments" });
  await until(() => ann.replies.length === 5);
  assert.equal(leases.has("nowhere", "anybody/ann"), false);
  assert.deepEqual(await ann.ask({ do: "create", doc: "there", n: 1, ops: [] }), { code: 7, error: "Exists" });
  assert.equal(leases.has("there", "anybody/ann"), false);
  assert.equal(store.asked.length, 0);
});

async function begun(t, settings) {
  const store = await FakeStore.begin(t);
  const data = folderFor(t);
  const begin = () => gatewayFor(t, { stores: [{ name: "s1", ...store.address }], data, writers: 1, guests: 1, names: 2, ...settings });
  return { store, begin, data, ...(await begin()) };
}

const edit = (n, doc = "d") => ({ do: "edit", doc, n, base: 1, ops: [] });

/** A browser's lease, under which it has written. */
async function written(store, talk, doc = "d") {
  const lease = await talk.ask({ do: "lease", doc });
  talk.send(edit(1, doc));
  const { message, reply } = await store.next();
  reply(taken(message, 2));
  await until(() => talk.replies.length === 3);
  return lease;
}

test("lease says name, epoch and next number, and commands go under that name", async (t) => {
  const { store, url } = await begun(t);
  const ann = await Talk.begin(t, url, "ann");
  const lease = await ann.ask({ do: "lease", doc: "d" });
  assert.match(lease.lease, /^g-[0-9a-f]{8}-0$/);
  assert.deepEqual(lease, { doc: "d", epoch: 1, lease: lease.lease, n: 1, ok: "lease" });
  ann.send(edit(1), { do: "lease", doc: "d" });
  const { source, message, reply } = await store.next();
  assert.equal(source, lease.lease);
  reply(taken(message, 2));
  await until(() => ann.replies.length === 4);
  assert.deepEqual(ann.replies[3], { ...lease, n: 2 });
});

test("where a command is on its way that nobody waits for, the number isn't told", async (t) => {
  const { store, url } = await begun(t);
  const ann = await Talk.begin(t, url, "ann");
  ann.send(edit(1));
  const { message, reply } = await store.next();
  ann.socket.terminate();
  const again = await Talk.begin(t, url, "ann");
  assert.equal((await again.ask({ do: "lease", doc: "d" })).n, undefined);
  reply(taken(message, 2));
  await pause(50);
  assert.equal((await again.ask({ do: "lease", doc: "d" })).n, 2);
});

test("a holder is a user and his token: the same token of another user is another holder", async (t) => {
  const { url } = await begun(t, { authorize: ({ headers }) => headers["x-user"] });
  const ann = await Talk.begin(t, url, "same", { headers: { "x-user": "ann" } });
  const bob = await Talk.begin(t, url, "same", { headers: { "x-user": "bob" } });
  const [one, other] = [await ann.ask({ do: "lease", doc: "d" }), await bob.ask({ do: "lease", doc: "d" })];
  assert.notEqual(one.lease, other.lease);
  assert.deepEqual([ann.code, bob.code], [null, null]);
});

const signedIn = { authorize: ({ headers }) => headers["x-user"] };
const as = (user) => ({ headers: { "x-user": user } });

test("one user has so many names in a document, and nobody else waits for him", async (t) => {
  const { store, url, gateway, events } = await begun(t, { ...signedIn, names: 6, limits: { userNames: 2 } });
  const eves = [];
  for (let k = 0; k < 6; k += 1) eves.push(await Talk.begin(t, url, `eve${k}`, as("eve")));
  for (const eve of eves) eve.send({ do: "lease", doc: "d" });
  await until(() => eves.filter(({ replies }) => replies.length === 2).length === 2);
  const bob = await Talk.begin(t, url, "bob", as("bob"));
  assert.equal((await written(store, bob)).epoch, 1);
  assert.equal(eves.filter(({ replies }) => replies.length === 2).length, 2);
  assert.match(gateway.metricsText(), /^richd_gateway_name_waits_total 4$/m);
  assert.ok(events.some(({ event, user }) => event === "a message waits for a name" && user === "eve"));
  // where one of hers goes, another one gets its name
  eves.find(({ replies }) => replies.length === 2).socket.terminate();
  await until(() => eves.filter(({ replies }) => replies.length === 2).length === 3);
});

test("a name that was only asked for goes to whoever writes, and its holder asks anew", async (t) => {
  const { store, url, gateway, data } = await begun(t, { ...signedIn, limits: { userNames: 2 } });
  const [ann, bob, eve] = [await Talk.begin(t, url, "ann", as("ann")), await Talk.begin(t, url, "bob", as("bob")), await Talk.begin(t, url, "eve", as("eve"))];
  for (const talk of [ann, bob]) await talk.ask({ do: "lease", doc: "d" });
  assert.equal(readFileSync(path.join(data, "leases-s1"), "utf8"), "", "nothing is kept of what was only asked for");
  eve.send(edit(1));
  const { message, reply } = await store.next();
  reply(taken(message, 2));
  await until(() => eve.replies.length === 2);
  assert.equal(await ann.closed(), 1012);
  assert.equal(bob.code, null);
  assert.match(gateway.metricsText(), /^richd_gateway_recalled_total 1$/m);
});

test("a name that isn't used is asked back where all are lent, and not one with something on its way", async (t) => {
  const { store, url, events } = await begun(t, { ...signedIn, recall: 1 });
  const [ann, bob, eve] = [await Talk.begin(t, url, "ann", as("ann")), await Talk.begin(t, url, "bob", as("bob")), await Talk.begin(t, url, "eve", as("eve"))];
  const lease = await written(store, ann);
  bob.send(edit(1));
  const busy = await store.next();
  eve.send(edit(1), { do: "lease", doc: "d" });
  const { source, message, reply } = await store.next();
  assert.equal(source, lease.lease);
  assert.equal(await ann.closed(), 1012);
  reply(taken(message, 3));
  await until(() => eve.replies.length === 3);
  assert.deepEqual([eve.replies[2].lease, eve.replies[2].epoch], [lease.lease, 2]);
  busy.reply(taken(busy.message, 4));
  await until(() => bob.replies.length === 2);
  assert.equal(bob.code, null);
  assert.deepEqual(events.filter(({ event }) => event === "a name is asked back").map(({ from, to }) => [from, to]), [["ann/ann", "eve/eve"]]);
});

test("users take turns at the places of guests, however much one of them sends", async (t) => {
  const { store, url, gateway } = await begun(t, { ...signedIn, names: 16, writers: 1, guests: 1, limits: { userNames: 8 } });
  const talks = [];
  for (const [user, token] of [["ann", "a0"], ["eve", "e0"], ["eve", "e1"], ["eve", "e2"], ["eve", "e3"], ["bob", "b0"]]) {
    const talk = await Talk.begin(t, url, token, as(user));
    talks.push([user, talk, await talk.ask({ do: "lease", doc: "d" })]);
  }
  const [, ...others] = talks; // the first one has the name of the session that is always open
  for (const [user, talk] of others) {
    talk.send(edit(1), edit(2));
    if (user === "eve" && talk === others[0][1]) await until(() => store.asked.length === 2);
  }
  await until(() => gateway.stores.get("s1").waiting === 2);
  const order = [];
  for (let k = 0; k < 10; k += 1) {
    const { source, message, reply } = await store.next();
    order.push(others.find(([, , { lease }]) => lease === source)[0]);
    reply(taken(message, k + 2));
  }
  assert.ok(order.indexOf("bob") <= 3, order.join(" "));
  for (const [, talk] of others) await until(() => talk.replies.length === 4);
});

test("the same token again ends the earlier session", async (t) => {
  const { url } = await begun(t);
  const ann = await Talk.begin(t, url, "ann");
  const again = await Talk.begin(t, url, "ann");
  assert.equal(await ann.closed(), 4409);
  assert.equal((await again.ask({ do: "lease", doc: "d" })).n, 1);
});

test("under a name that was another's, undo waits for an own change, and an old creation isn't one's own", async (t) => {
  const { store, url } = await begun(t, { term: 0.000_001 }); // a tenth of a second
  for (const token of ["ann", "bob"]) await written(store, await Talk.begin(t, url, token));
  await pause(150);
  const eve = await Talk.begin(t, url, "eve");
  assert.equal((await eve.ask({ do: "lease", doc: "d" })).epoch, 2);
  assert.deepEqual(await eve.ask({ do: "undo", doc: "d", n: 5 }), { code: 19, error: "NothingToUndo" });
  eve.send({ do: "create", doc: "d", n: 1, ops: [] });
  const creation = await store.next();
  creation.reply(taken(creation.message, 1, "again"));
  await until(() => eve.replies.length === 4);
  assert.deepEqual(eve.replies[3], { code: 10, error: "OldNumber" });
  eve.send(edit(5), { do: "undo", doc: "d", n: 6 });
  const command = await store.next();
  await pause(50);
  assert.equal(store.asked.length, 0);
  command.reply(taken(command.message, 9));
  assert.deepEqual((await store.next()).message, { do: "undo", doc: "d", n: 6 });
});

test("after a start a browser has its name again, and what isn't lent yet is new", async (t) => {
  const { store, begin, url, close } = await begun(t);
  const before = await written(store, await Talk.begin(t, url, "ann"));
  await close();
  const { url: next } = await begin();
  const { n, ...after } = await (await Talk.begin(t, next, "ann")).ask({ do: "lease", doc: "d" });
  assert.deepEqual({ ...after, n: 1 }, before);
  assert.equal(n, undefined);
  assert.equal((await (await Talk.begin(t, next, "bob")).ask({ do: "lease", doc: "d" })).n, 1);
});

test("a folder is one gateway's at a time", async (t) => {
  const { begin } = await begun(t);
  await assert.rejects(begin(), /is another gateway's that runs/);
});

test("more names than sessions: those that have none get a guest's place, one after the other", async (t) => {
  const { store, url } = await begun(t, { names: 4 });
  const sources = [];
  for (const token of ["ann", "bob", "eve", "dan"]) {
    const talk = await Talk.begin(t, url, token);
    talk.send(edit(1));
    const { source, message, reply } = await store.next();
    sources.push(source);
    reply(taken(message, 2));
    await until(() => talk.replies.length === 2);
  }
  assert.equal(new Set(sources).size, 4);
  assert.ok(store.sessions.size <= 2 + 1 + 1 + 1 + 1, "the last one may not have ended yet");
});

test("a guest's place that is taken is waited for", async (t) => {
  const { store, url } = await begun(t, { names: 3 });
  const talks = [];
  for (const token of ["ann", "bob", "eve"]) talks.push(await Talk.begin(t, url, token));
  for (const talk of talks) talk.send(edit(1));
  const [one, other] = [await store.next(), await store.next()];
  await pause(100);
  assert.equal(store.asked.length, 0);
  for (const { message, reply } of [one, other]) reply(taken(message, 2));
  const third = await store.next();
  assert.equal(new Set([one.source, other.source, third.source]).size, 3);
});
