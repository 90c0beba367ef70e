// Who connects, and what he may do.

import assert from "node:assert/strict";
import http from "node:http";
import test from "node:test";
import { isAllowedOrigin, isKnownHost } from "../origins.js";
import { FakeStore, Talk, gatewayFor, pause, taken, until } from "./talk.js";

async function begun(t, settings) {
  const store = await FakeStore.begin(t);
  return { store, ...(await gatewayFor(t, { stores: [{ name: "s1", ...store.address }], ...settings })) };
}

const NOT_ALLOWED = { code: 60, error: "NotAllowed" };
const MESSAGES = {
  read: [{ do: "fetch", doc: "d" }, { do: "since", doc: "d", rev: 1 }, { do: "subscribe", doc: "d", rev: 1 }, { at: [0, 0], do: "presence", doc: "d", rev: 1 }],
  edit: [{ do: "edit", doc: "d", n: 1, base: 1, ops: [] }, { do: "undo", doc: "d", n: 1 }],
  create: [{ do: "create", doc: "d", n: 1, ops: [] }],
  delete: [{ do: "delete", doc: "d", n: 1 }],
};

test("each message needs its right, and is refused by 60 without it, before any store hears of it", async (t) => {
  const asked = [];
  const can = (user, doc, action) => (asked.push([user, doc, action]), false);
  const { store, url } = await begun(t, { authorize: () => "ann", can });
  const ann = await Talk.begin(t, url, "token");
  for (const [right, messages] of Object.entries(MESSAGES)) {
    for (const message of messages) {
      assert.deepEqual(await ann.ask(message), NOT_ALLOWED, JSON.stringify(message));
      assert.deepEqual(asked.at(-1), ["ann", "d", right]);
    }
  }
  assert.deepEqual(await ann.ask({ do: "lease", doc: "d" }), NOT_ALLOWED);
  assert.deepEqual(asked.slice(-2).map(([, , action]) => action), ["edit", "create"]);
  assert.deepEqual(await ann.ask({ do: "unsubscribe", doc: "d" }), { doc: "d", ok: "unsubscribed" });
  assert.equal(store.asked.length, 0);
});

test("rights that come later are waited for, in order; where they can't be found out it is to be sent again", async (t) => {
  const verdicts = [];
  const can = () => new Promise((resolve, reject) => verdicts.push({ resolve, reject }));
  const { store, url } = await begun(t, { can });
  const ann = await Talk.begin(t, url, "token");
  ann.send(MESSAGES.edit[0], { ...MESSAGES.edit[0], n: 2 }, { ...MESSAGES.edit[0], n: 3 });
  await until(() => verdicts.length === 3);
  verdicts[1].resolve(true);
  await pause(50);
  assert.equal(store.asked.length, 0);
  verdicts[0].resolve(true);
  const [one, other] = [await store.next(), await store.next()];
  assert.deepEqual([one.message.n, other.message.n], [1, 2]);
  for (const { message, reply } of [one, other]) reply(taken(message, message.n));
  verdicts[2].reject(new Error("no database"));
  await until(() => ann.replies.length === 4);
  assert.equal(ann.replies[3].code, 22);
});

test("onCommand refuses, onTaken is told what was taken, and probes aren't told", async (t) => {
  const told = [];
  const onCommand = ({ user, doc, message }) => user.id === "ann" && doc === "d" && message.n !== 2;
  const { store, url } = await begun(t, { authorize: () => ({ id: "ann", name: "Ann" }), onCommand, onTaken: (it) => told.push(it) });
  const ann = await Talk.begin(t, url, "token");
  const [message] = MESSAGES.edit;
  assert.deepEqual(await ann.ask({ ...message, n: 2 }), NOT_ALLOWED);
  ann.send(message, { ...message, base: 2 ** 53 - 1 });
  const [first, probe] = [await store.next(), await store.next()];
  first.reply(taken(first.message, 7));
  probe.reply(taken(probe.message, 7, "again"));
  await until(() => ann.replies.length === 4);
  assert.deepEqual(told, [{ user: { id: "ann", name: "Ann" }, doc: "d", message, rev: 7, isAgain: false }]);
});

test("a command passes where onCommand gives true, and by nothing else", async (t) => {
  const given = { yes: true, promised: Promise.resolve(true), no: false, nothing: undefined, null: null, one: 1, text: "true", empty: Promise.resolve() };
  const { store, url, events } = await begun(t, { onCommand: ({ doc }) => given[doc] });
  const ann = await Talk.begin(t, url, "token");
  for (const doc of Object.keys(given)) {
    ann.send({ ...MESSAGES.edit[0], doc });
    if (["yes", "promised"].includes(doc)) {
      const { message, reply } = await store.next();
      reply(taken(message, 2));
    }
    await until(() => ann.replies.length === 2 + Object.keys(given).indexOf(doc));
    assert.equal(ann.replies.at(-1).code, ["yes", "promised"].includes(doc) ? undefined : 60, doc);
  }
  assert.equal(store.asked.length, 0);
  assert.equal(events.filter(({ event }) => event.startsWith("onCommand gave neither")).length, 5);
});

test("attributes of any name pass unchanged, to the store and back", async (t) => {
  const { store, url } = await begun(t);
  const ann = await Talk.begin(t, url, "token");
  const ops = '[{"attributes":{"__proto__":1,"constructor":true,"hasOwnProperty":"a","toString":null},"retain":1},{"insert":{"__proto__":"x"}}]';
  ann.send(`{"do":"edit","doc":"d","n":1,"base":1,"ops":${ops}}`);
  const { message, reply } = await store.next();
  assert.equal(JSON.stringify(message.ops), ops);
  reply(taken(message, 2));
  ann.send({ do: "subscribe", doc: "d", rev: 1 });
  (await store.next()).reply({ deltas: [JSON.parse(ops)], doc: "d", ok: "since", rev: 2 });
  (await store.next()).reply({ doc: "d", ok: "subscribed", rev: 2 });
  await until(() => ann.news.length === 1);
  assert.equal(JSON.stringify(ann.news[0].ops), ops);
});

/** The status of a page that is asked for by these headers. */
const statusOf = (port, page, headers) => new Promise((resolve, reject) => {
  const asked = http.get({ host: "127.0.0.1", port, path: page, headers, setHost: false }, ({ statusCode }) => resolve(statusCode));
  asked.on("error", reject);
});

test("pages from elsewhere don't get the list, the counts, or whether it runs", async (t) => {
  const { port, gateway, events } = await begun(t, { hosts: ["gateway1"] });
  const PAGES = ["/docs", "/metrics", "/healthz"];
  const good = [{ host: `127.0.0.1:${port}` }, { host: "10.0.0.7" }, { host: "[::1]:80" }, { host: "LOCALHOST" }, { host: "gateway1:8080" }, { host: `localhost:${port}`, origin: `http://localhost:${port}` }];
  const bad = [{ host: "evil.example" }, { host: `evil.example:${port}`, origin: `http://evil.example:${port}` }, { host: "127.0.0.1", origin: "https://evil.example" },
    { host: "127.0.0.1", origin: "null" }, { host: "127.0.0.1.evil.example" }, { host: "gateway1.evil.example" }];
  for (const page of PAGES) {
    for (const headers of good) assert.equal(await statusOf(port, page, headers), 200, `${page} ${JSON.stringify(headers)}`);
    for (const headers of bad) assert.equal(await statusOf(port, page, headers), 403, `${page} ${JSON.stringify(headers)}`);
  }
  assert.match(gateway.metricsText(), new RegExp(`^richd_gateway_pages_refused_total ${PAGES.length * bad.length}$`, "m"));
  assert.ok(events.some(({ event, host }) => event === "a page is refused" && host === "evil.example"));
});

test("with a list of origins their names are known, too", () => {
  const known = { origins: ["https://notes.example", "http://[2001:db8::1]:8080"] };
  const asked = (host) => isKnownHost({ headers: { host } }, known);
  assert.ok(asked("notes.example") && asked("Notes.Example:443") && asked("[2001:db8::1]:8080") && asked(undefined));
  assert.ok(!asked("example") && !asked("notes.example.evil") && !asked(""));
});

test("each session is judged by what authorize gave for it, and shown by that name", async (t) => {
  const told = [];
  const given = { "/old": { id: "ann", name: "Ann", isEditor: false }, "/new": { id: "ann", name: "Ann B.", isEditor: true } };
  const settings = { authorize: ({ url }) => given[url] ?? "bob", can: (user, doc, action) => action === "read" || user.isEditor, onTaken: ({ user }) => told.push(user) };
  const { store, url } = await begun(t, settings);
  const [old, renewed, bob] = [await Talk.begin(t, `${url}old`, "a"), await Talk.begin(t, `${url}new`, "b"), await Talk.begin(t, url, "c")];
  assert.deepEqual(await old.ask(MESSAGES.edit[0]), NOT_ALLOWED);
  renewed.send(MESSAGES.edit[0]);
  const { message, reply } = await store.next();
  reply(taken(message, 2));
  await until(() => renewed.replies.length === 2);
  assert.deepEqual(told, [given["/new"]]);
  for (const talk of [bob, old, renewed]) await talk.ask(MESSAGES.read.at(-1));
  await until(() => bob.carets.length === 2);
  assert.deepEqual(bob.carets.map(({ user }) => user).sort(), ["Ann", "Ann B."]);
});

test("a hook that throws ends nothing", async (t) => {
  const { store, url, events } = await begun(t, { onTaken: () => { throw new Error("a fault"); }, can: (user, doc) => { if (doc === "e") throw new Error("b fault"); return true; } });
  const ann = await Talk.begin(t, url, "token");
  assert.equal((await ann.ask({ do: "fetch", doc: "e" })).code, 22);
  ann.send(MESSAGES.edit[0]);
  const { message, reply } = await store.next();
  reply(taken(message, 2));
  await until(() => ann.replies.length === 3);
  await until(() => events.some(({ event, error }) => event === "onTaken failed" && error === "a fault"));
});

test("a user's sessions are closed where his rights change, and nobody else's", async (t) => {
  const { gateway, url } = await begun(t, { authorize: ({ headers }) => headers["x-user"] });
  const as = (user) => ({ headers: { "x-user": user } });
  const [one, other, bob] = [await Talk.begin(t, url, "a", as("ann")), await Talk.begin(t, url, "b", as("ann")), await Talk.begin(t, url, "c", as("bob"))];
  gateway.closeUser("ann");
  assert.deepEqual([await one.closed(), await other.closed(), bob.code], [4403, 4403, null]);
});

/** Ann and bob follow a document of a gateway that asks what they may. */
async function following(t, settings) {
  const rights = { ann: true, bob: true, asked: 0, fault: false, hangs: false, hung: 0 };
  const can = (user) => {
    rights.asked += 1;
    if (rights.fault) throw new Error("no database");
    if (rights.hangs) return new Promise(() => (rights.hung += 1));
    return rights[user];
  };
  const it = await begun(t, { authorize: ({ headers }) => headers["x-user"], can, ...settings });
  const talks = [];
  for (const user of ["ann", "bob"]) {
    const talk = await Talk.begin(t, it.url, user, { headers: { "x-user": user } });
    talk.send({ do: "subscribe", doc: "d", rev: 1 }, { at: [0, 0], do: "presence", doc: "d", rev: 1 });
    if (user === "ann") {
      (await it.store.next(({ do: what }) => what === "since")).reply({ deltas: [], doc: "d", ok: "since", rev: 1 });
      it.follower = await it.store.next(({ do: what }) => what === "subscribe");
      it.follower.reply({ doc: "d", ok: "subscribed", rev: 1 });
    }
    await until(() => talk.replies.length === 3);
    talks.push(talk);
  }
  const [ann, bob] = talks;
  const news = async (rev) => {
    it.follower.reply({ doc: "d", news: rev, ops: [] });
    await until(() => bob.news.some((line) => line.news === rev));
  };
  return { ...it, rights, ann, bob, news };
}

test("rights that are taken away end news and carets, by 60, after a time, and nobody else's", async (t) => {
  const { rights, ann, bob, news, events } = await following(t, { recheck: 1 });
  await news(2);
  rights.ann = false;
  await until(() => ann.news.some(({ ended }) => ended === 60));
  await news(3);
  await bob.ask({ at: [1, 1], do: "presence", doc: "d", rev: 3 });
  await until(() => bob.carets.some(({ at }) => at === null), "ann's caret goes");
  assert.deepEqual(ann.news, [{ doc: "d", news: 2, ops: [] }, { doc: "d", ended: 60 }]);
  assert.equal(ann.carets.some(({ at }) => at?.[0] === 1), false);
  assert.ok(events.some(({ event, user, doc }) => event === "a user may no longer read what he is told of" && user === "ann" && doc === "d"));
});

test("rights that can't be asked for again are asked for later, and nothing ends", async (t) => {
  const { rights, ann, news, events } = await following(t, { recheck: 1 });
  rights.fault = true;
  await until(() => events.some(({ event }) => event === "rights can't be asked for again now"));
  await news(2);
  assert.deepEqual(ann.news, [{ doc: "d", news: 2, ops: [] }]);
  Object.assign(rights, { fault: false, ann: false });
  await until(() => ann.news.some(({ ended }) => ended === 60));
});

test("rights of which no answer comes are asked for again, too", async (t) => {
  const { rights, ann } = await following(t, { recheck: 1 });
  rights.hangs = true;
  await until(() => rights.hung > 0);
  Object.assign(rights, { hangs: false, ann: false });
  await until(() => ann.news.some(({ ended }) => ended === 60));
});

test("revoke ends at once what a user may no longer do, of one document or all, and his sessions stay", async (t) => {
  const { rights, ann, bob, news, gateway, store } = await following(t, { recheck: 1_000_000 });
  rights.ann = false;
  gateway.revoke("ann", "e");
  gateway.revoke("zoe");
  await news(2);
  assert.deepEqual(ann.news, [{ doc: "d", news: 2, ops: [] }]);
  ann.send({ do: "fetch", doc: "d" });
  await until(() => ann.replies.length === 4);
  assert.deepEqual(ann.replies[3], NOT_ALLOWED);
  rights.ann = true;
  ann.send({ do: "fetch", doc: "d" });
  const fetch = await store.next();
  rights.ann = false;
  gateway.revoke("ann");
  await until(() => ann.replies.length === 5);
  assert.deepEqual(ann.replies[4], NOT_ALLOWED);
  fetch.reply({ doc: "d", ok: "doc", ops: [{ insert: "a secret" }], rev: 2 });
  await until(() => ann.news.some(({ ended }) => ended === 60));
  await news(3);
  assert.deepEqual(await bob.ask({ do: "unsubscribe", doc: "d" }), { doc: "d", ok: "unsubscribed" });
  assert.deepEqual([ann.code, ann.news.at(-1), ann.replies.length], [null, { doc: "d", ended: 60 }, 5]);
});

const status = async (talk) => {
  await until(() => talk.error !== undefined);
  return Number(/(\d{3})$/.exec(talk.error.message)[1]);
};

test("whoever isn't signed in gets 401, and 503 where that can't be found out", async (t) => {
  const authorize = ({ url }) => { if (url === "/later") throw new Error("no database"); return url === "/ann" ? "ann" : null; };
  const { url, port } = await begun(t, { authorize });
  assert.equal(await status(new Talk(url)), 401);
  assert.equal(await status(new Talk(`${url}later`)), 503);
  await Talk.begin(t, `${url}ann`, "token");
  assert.equal((await fetch(`http://127.0.0.1:${port}/docs`)).status, 401);
});

test("a page from elsewhere is refused by 403", async (t) => {
  const { url, port } = await begun(t);
  assert.equal(await status(new Talk(url, { origin: "https://evil.example" })), 403);
  assert.equal(await status(new Talk(url, { origin: `http://evil.example:${port}`, headers: { host: `evil.example:${port}` } })), 403, "a name that leads here");
  assert.equal(await status(new Talk(url, { origin: `http://localhost:${port + 1}` })), 403);
  await Talk.begin(t, url, "token", { origin: `http://127.0.0.1:${port}` });
});

test("a list of origins alone says who may connect, also behind TLS", () => {
  const from = (origin, host = "notes.example") => ({ headers: { origin, host } });
  const origins = ["https://notes.example"];
  assert.ok(isAllowedOrigin(from("https://notes.example"), origins));
  assert.ok(isAllowedOrigin(from(undefined), origins), "a program");
  assert.ok(!isAllowedOrigin(from("http://notes.example"), origins));
  assert.ok(!isAllowedOrigin(from("http://localhost:8080", "localhost:8080"), origins));
  assert.ok(!isAllowedOrigin(from("https://notes.example")), "without a list");
  assert.ok(isAllowedOrigin(from("http://[::1]:8080", "[::1]:8080")));
  assert.ok(isAllowedOrigin(from("http://localhost", "LOCALHOST")) === false, "not the same text");
  assert.ok(!isAllowedOrigin({ headers: { origin: "http://localhost" } }));
});

test("where the gateway or a user has too many sessions the next one is closed by 4503", async (t) => {
  const { url, events } = await begun(t, { authorize: ({ headers }) => headers["x-user"], limits: { sessions: 3, userSessions: 2 } });
  const as = (user) => ({ headers: { "x-user": user } });
  await Talk.begin(t, url, "a", as("ann"));
  const second = await Talk.begin(t, url, "b", as("ann"));
  assert.equal(await new Talk(url, as("ann")).closed(), 4503);
  await Talk.begin(t, url, "c", as("bob"));
  assert.equal(await new Talk(url, as("eve")).closed(), 4503);
  assert.deepEqual(events.filter(({ event }) => event === "full").map(({ user }) => user), ["ann", "eve"]);
  second.socket.terminate();
  await pause(50);
  await Talk.begin(t, url, "d", as("eve"));
});

test("a user who sends too much is read more slowly, and nobody else is", async (t) => {
  const { url } = await begun(t, { authorize: ({ headers }) => headers["x-user"], limits: { userMessages: 100 } });
  const as = (user) => ({ headers: { "x-user": user } });
  const [ann, bob] = [await Talk.begin(t, url, "a", as("ann")), await Talk.begin(t, url, "b", as("bob"))];
  const began = performance.now();
  const many = ann.ask(...Array(200).fill({ do: "unsubscribe", doc: "d" }));
  await bob.ask({ do: "unsubscribe", doc: "d" });
  assert.ok(performance.now() - began < 500);
  await many;
  assert.ok(performance.now() - began > 800, "200 messages at 100 a second, after a first hundred");
});
