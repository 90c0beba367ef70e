// Browsers that are gone without a word, or don't read.

import assert from "node:assert/strict";
import test from "node:test";
import { FakeStore, Talk, gatewayFor, pause, until } from "./talk.js";

const PULSE = 300;
const LARGE = [{ insert: "x".repeat(500_000) }];

async function begun(t) {
  const store = await FakeStore.begin(t);
  const served = await gatewayFor(t, { stores: [{ name: "s1", ...store.address }], pulse: PULSE });
  const sessions = () => Number(/^richd_gateway_sessions (\d+)$/m.exec(served.gateway.metricsText())[1]);
  return { store, ...served, sessions };
}

test("a browser that answers no ping is cut off, and one that does stays", async (t) => {
  const { url, sessions } = await begun(t);
  const [gone, there] = [await Talk.begin(t, url, "gone"), await Talk.begin(t, url, "there")];
  gone.socket.pause();
  await until(() => sessions() === 1);
  await pause(4 * PULSE);
  assert.equal(sessions(), 1);
  assert.equal((await there.ask({ do: "unsubscribe", doc: "d" })).ok, "unsubscribed");
});

test("a browser that asks and reads nothing is cut off, and counted", async (t) => {
  const { store, url, gateway, sessions } = await begun(t);
  const greedy = await Talk.begin(t, url, "greedy");
  greedy.socket.pause();
  for (let k = 0; k < 200; k += 1) greedy.send({ do: "fetch", doc: "d" });
  let isOver = false;
  let served = 0;
  const serving = (async () => {
    while (!isOver) {
      for (const { reply } of store.asked.splice(0)) {
        served += 1;
        reply({ doc: "d", ok: "doc", ops: LARGE, rev: 1 });
      }
      await pause(10);
    }
  })();
  await until(() => sessions() === 0);
  isOver = true;
  await serving;
  assert.ok(served < 40, `${served} of 200 were asked of the store`);
  assert.equal(gateway.metrics.slow, 1);
});

test("a browser that waits for a store isn't cut off, though no more of it is read", async (t) => {
  const { store, url, sessions } = await begun(t);
  const ann = await Talk.begin(t, url, "ann");
  for (let k = 0; k < 100; k += 1) ann.send({ do: "fetch", doc: "d" });
  await until(() => store.asked.length === 8);
  await pause(6 * PULSE);
  assert.equal(sessions(), 1);
  assert.equal(ann.code, null);
});
