// An idle connection: whether the other end is there is asked, by the clock, and a page that is shown again looks at once.

import assert from "node:assert/strict";
import test from "node:test";
import { Heartbeat } from "../heartbeat.js";
import { Client, connect } from "../richd.js";
import { scripted, served, until } from "./fake.js";
import { needsWebSockets, WebSocket, WebSocketServer } from "./websockets.js";

const PATIENCE = 200; // milliseconds

/** A heartbeat, and what it did with the milliseconds since its begin. It ends with the test. */
function beating(t, { isAnswered = false, isDue = () => false } = {}) {
  const did = [];
  const began = performance.now();
  let isAsked = false;
  const heartbeat = new Heartbeat({
    patience: PATIENCE,
    isDue: () => isAsked || isDue(),
    ask() {
      isAsked = !isAnswered;
      did.push(["ask", performance.now() - began]);
      if (isAnswered) heartbeat.begin();
    },
    giveUp: () => did.push(["give up", performance.now() - began]),
  });
  t.after(() => heartbeat.end());
  return { did, heartbeat };
}

/** Lets no timer come for so many milliseconds. */
function sleepThrough(milliseconds) {
  for (const end = performance.now() + milliseconds; performance.now() < end; );
}

test("it asks after half of the patience, and gives up after all of it", async (t) => {
  const { did } = beating(t);
  await until(() => did.at(-1)?.[0] === "give up");
  assert.equal(did[0][0], "ask");
  assert.ok(did[0][1] >= PATIENCE / 2 - 2 && did.at(-1)[1] >= PATIENCE - 2, `${did}`);
});

test("it goes on where it is answered", async (t) => {
  const { did } = beating(t, { isAnswered: true });
  await until(() => did.length === 5);
  assert.ok(did.every(([what]) => what === "ask"));
});

test("a timer that comes late asks first, and gives up later", async (t) => {
  for (const isDue of [true, false]) {
    const { did } = beating(t, { isDue: () => isDue });
    sleepThrough(2 * PATIENCE);
    await until(() => did.at(-1)?.[0] === "give up");
    assert.equal(did[0][0], "ask");
    assert.ok(did.at(-1)[1] - did[0][1] >= PATIENCE / 2 - 2, `${did}`);
  }
});

test("an idle reader whose line is dead begins a new one, and gets the news", async (t) => {
  const server = await served({ spoil: (_, session) => session.isDeaf });
  t.after(() => server.close());
  const writer = await connect({ ...server.address, source: "writer" });
  t.after(() => writer.close());
  await writer.create("d", [{ insert: "\n" }]);
  const reader = await connect({ ...server.address, patience: 10 * PATIENCE });
  t.after(() => reader.close());
  const document = await reader.open("d");
  const told = [];
  reader.addEventListener("state", ({ state }) => told.push(state));
  const dead = server.sessions.at(-1);
  Object.assign(dead, { isDeaf: true, reply: () => {} });
  await writer.edit("d", [{ insert: "news" }], 1);
  await until(() => document.revision === 2);
  assert.deepEqual(told.slice(0, 2), ["offline", "connected"]);
  assert.equal(reader.state, "connected");
});

/** A page that a test wakes. Pauses and patience don't end in it by themselves. */
function pageOf(t) {
  const page = { window: new EventTarget(), document: new EventTarget() };
  const { setTimeout } = globalThis;
  globalThis.setTimeout = (call, milliseconds) => setTimeout(call, milliseconds < 20 ? milliseconds : 2 ** 31 - 1);
  globalThis.addEventListener = page.window.addEventListener.bind(page.window);
  globalThis.document = page.document;
  t.after(() => {
    globalThis.setTimeout = setTimeout;
    delete globalThis.addEventListener;
    delete globalThis.document;
  });
  return page;
}

test("it connects at once where the network is back, and where the page is shown", async (t) => {
  const page = pageOf(t);
  let isThere = false;
  const server = await scripted((message, session) => (isThere ? session.reply({ ok: "hello" }) : session.cut()));
  t.after(() => server.close());
  const client = new Client(server.address);
  t.after(() => client.close());
  const waking = [
    () => page.window.dispatchEvent(new Event("online")),
    () => page.document.dispatchEvent(Object.assign(new Event("visibilitychange"))),
  ];
  await until(() => client.state === "full");
  for (const [index, wake] of [...waking, ...waking].entries()) {
    isThere = index === 3;
    page.document.visibilityState = "hidden";
    page.document.dispatchEvent(new Event("visibilitychange"));
    page.document.visibilityState = "visible";
    await until(() => server.sessions.at(-1).hasEnded);
    await new Promise((resolve) => setTimeout(resolve, 10));
    assert.equal(server.sessions.length, index + 1);
    wake();
    await until(() => server.sessions.length === index + 2);
  }
  await client.connected();
  assert.equal(client.state, "connected");
  // and where there is a connection it asks
  let asked;
  server.sessions.at(-1).reply = (line) => (asked = line);
  waking[0]();
  await until(() => asked !== undefined);
});

test("connect goes on for ever, and its state says how it stands", async (t) => {
  let isThere = false;
  const server = await scripted((message, session) => {
    if (!isThere) session.cut();
    else if (message.do === "hello") session.reply({ ok: "hello" });
    else session.reply({ doc: "d", ok: "doc", ops: [], rev: 1 });
  });
  t.after(() => server.close());
  const client = new Client(server.address);
  const told = [];
  client.addEventListener("state", ({ state }) => told.push(state));
  assert.equal(client.state, "offline");
  const fetched = client.fetch("d");
  await until(() => server.sessions.length >= 3);
  assert.equal(client.state, "full"); // it closed without a byte
  isThere = true;
  assert.deepEqual(await fetched, { rev: 1, ops: [] });
  await client.close();
  assert.deepEqual(told, ["full", "connected", "closed"]);
});

test("a gateway says that it has no place, and one that is gone says nothing", needsWebSockets, async (t) => {
  const full = new WebSocketServer({ host: "127.0.0.1", port: 0 });
  t.after(() => full.close());
  full.on("connection", (webSocket) => webSocket.close(4503, "full"));
  await until(() => full.address() !== null);
  const client = new Client({ url: `ws://127.0.0.1:${full.address().port}/`, WebSocket });
  t.after(() => client.close());
  await until(() => client.state === "full");
  full.close();
  await until(() => client.state === "offline");
});
