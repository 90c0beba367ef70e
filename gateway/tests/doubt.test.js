// A client's edit in doubt, after its name was lent on: it is shown as that, and never sent again by its number.

import assert from "node:assert/strict";
import path from "node:path";
import test from "node:test";
import { connect } from "../../clients/js/node.js";
import { connect as connectOffline } from "../../clients/js/offline.js";
import { Browser } from "../../clients/js/tests/browser.js";
import { webSockets } from "../websockets.js";
import { Talk } from "./talk.js";
import { GatewayProgram, Richd, folderFor, needsRichd, pause, until } from "./programs.js";

const { WebSocket } = webSockets();
const DAY = 86_400_000;
const TERM = 2_000; // milliseconds

async function begun(t) {
  const store = new Richd(t);
  await store.serve();
  const data = path.join(folderFor(t), "data");
  const settings = () => ({ stores: [{ name: "s1", host: "127.0.0.1", port: store.port }], data, writers: 2, names: 2, guests: 1, term: TERM / DAY });
  const gateway = new GatewayProgram(t, settings, "pipe");
  await gateway.start();
  return { store, gateway };
}

/** Another takes the second of the two names, or uses it again. */
async function takeOther(t, gateway) {
  const zoe = await Talk.begin(t, gateway.url, "zoe");
  assert.equal((await zoe.ask({ do: "lease", doc: "d" })).epoch, 1);
  await zoe.ask({ do: "edit", doc: "d", n: 1, base: 2 ** 53 - 1, ops: [] }); // is never taken, but a name is lent for it
  zoe.socket.terminate();
}

/** A third one's edits in the document, under the name that was lent first, once the term is over. */
async function lendOn(t, gateway, edits) {
  await pause(TERM / 8 + 100);
  await takeOther(t, gateway); // used later than the first one
  await pause(TERM + 200);
  const bob = await connect({ url: gateway.url, WebSocket, timeout: 60_000 });
  t.after(() => bob.close());
  const document = await bob.open("d");
  for (let k = 0; k < edits; k += 1) {
    document.apply([{ insert: "b" }]);
    await document.flush();
  }
  assert.ok(gateway.said.some(({ event, epoch }) => event === "a name is lent anew" && epoch === 2));
  return document;
}

for (const isTaken of [true, false]) {
  test(`a client whose connection was cut: the edit without a reply was ${isTaken ? "" : "not "}taken`, needsRichd, async (t) => {
    const { store, gateway } = await begun(t);
    const sockets = [];
    let isAway = false;
    class Socket extends WebSocket {
      constructor(url) {
        super(isAway ? "ws://127.0.0.1:1/" : url);
        sockets.push(this);
      }

      // what is sent while it is deaf is lost, or its reply is
      send(bytes) {
        if (!this.isDeaf || isTaken) super.send(bytes);
        if (this.isDeaf) setTimeout(() => this.terminate(), 300);
      }

      emit(name, ...given) {
        return this.isDeaf && name === "message" ? true : super.emit(name, ...given);
      }
    }
    const ann = await connect({ url: gateway.url, WebSocket: Socket, timeout: 60_000 });
    t.after(() => ann.close());
    const document = await ann.open("d", { create: [{ insert: "\n" }] });
    document.apply([{ insert: "1" }]);
    await document.flush();
    await takeOther(t, gateway);
    const told = [];
    document.addEventListener("doubt", ({ delta }) => told.push(delta.ops));
    sockets.at(-1).isDeaf = true;
    isAway = true;
    document.apply([{ insert: "2" }]);
    await until(() => ann.state === "offline");
    const others = await lendOn(t, gateway, 3); // one more than ann's number
    isAway = false;
    await until(() => told.length === 1, "doubt", 60_000);
    assert.deepEqual(told, [[{ insert: "2" }]]);
    await until(() => document.isSaved && document.revision === others.revision);
    await store.kill();
    const text = store.dump().get("d").ops[0].insert;
    assert.equal([...text].sort().join(""), isTaken ? "\n12bbb" : "\n1bbb", "once if it was taken, and else not at all");
    assert.equal(document.contents.ops[0].insert, text);
  });
}

test("a page that is loaded again: what wasn't sent is sent under the new lease, and what was is in doubt", needsRichd, async (t) => {
  const { store, gateway } = await begun(t);
  const browser = new Browser();
  const page = browser.page();
  let isAway = false;
  class Socket extends WebSocket {
    constructor(url) {
      super(isAway ? "ws://127.0.0.1:1/" : url);
    }
  }
  const open = async (onPage) => {
    const client = await connectOffline({ url: gateway.url, WebSocket: Socket, server: "s", timeout: 60_000, signal: onPage.signal }, onPage);
    t.after(() => onPage.goes());
    return { client, document: await client.open("d", { create: [{ insert: "\n" }] }) };
  };
  const { document } = await open(page);
  document.apply([{ insert: "1" }]);
  await document.flush();
  await takeOther(t, gateway);
  await store.kill(); // the edit leaves for the gateway, and waits there
  document.apply([{ insert: "2" }]);
  await pause(300);
  document.apply([{ insert: "3" }]); // and this one behind it
  await until(() => document.isKept);
  isAway = true;
  page.goes();
  await pause(300);
  await store.serve();
  await lendOn(t, gateway, 3);
  isAway = false;
  const again = await open(browser.page(page.tab));
  const told = [];
  again.document.addEventListener("doubt", ({ delta }) => told.push(delta.ops));
  await until(() => told.length === 1, "doubt", 60_000);
  assert.deepEqual(told, [[{ insert: "2" }]]);
  await again.document.flush();
  await store.kill();
  const text = store.dump().get("d").ops[0].insert;
  assert.equal([...text].sort().join(""), "\n13bbb");
});
