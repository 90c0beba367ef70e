// The bridge: sessions over a WebSocket, and the files that it serves.

import assert from "node:assert/strict";
import { mkdtempSync, rmSync } from "node:fs";
import http from "node:http";
import os from "node:os";
import path from "node:path";
import test from "node:test";
import { startBridge } from "../bridge.js";
import { connect } from "../richd.js";
import { served, until } from "./fake.js";
import { needsWebSockets, WebSocket } from "./websockets.js";

async function bridged(t) {
  const server = await served();
  const data = mkdtempSync(path.join(os.tmpdir(), "richd-js-"));
  const bridge = await startBridge({ ...server.address, data });
  t.after(async () => {
    await bridge.close();
    server.close();
    rmSync(data, { recursive: true });
  });
  return { server, bridge };
}

async function connected(t, url) {
  const client = await connect({ url, WebSocket });
  t.after(() => client.close());
  return client;
}

test("a WebSocket carries a session, over a cut too", needsWebSockets, async (t) => {
  const { server, bridge } = await bridged(t);
  const [ann, bob] = [await connected(t, bridge.webSocketUrl), await connected(t, bridge.webSocketUrl)];
  await ann.create("d", [{ insert: "é\u{1f600}\n".repeat(7_000) }]);
  const [left, right] = [await ann.open("d"), await bob.open("d")];
  left.apply([{ insert: "left " }]);
  server.sessions[0].cut();
  right.apply([{ insert: "right " }]);
  await Promise.all([left.flush(), right.flush()]);
  await until(() => left.revision === 3 && right.revision === 3);
  assert.deepEqual(left.contents.ops, server.documents.at("d"));
  assert.deepEqual(right.contents.ops, server.documents.at("d"));
});

test("many clients share its sessions, and one that goes takes none along", needsWebSockets, async (t) => {
  const { server, bridge } = await bridged(t);
  const clients = [];
  for (let k = 0; k < 80; k += 1) clients.push(await connected(t, bridge.webSocketUrl));
  await Promise.all(clients.map((client, index) => client.create(`d${index}`, [{ insert: "\n" }])));
  await clients[0].close();
  assert.equal((await clients[79].fetch("d79")).rev, 1);
  assert.ok(server.sessions.length <= 64, `${server.sessions.length} sessions`);
});

test("a page of another origin may not connect", needsWebSockets, async (t) => {
  const { bridge } = await bridged(t);
  const opened = (origin) =>
    new Promise((resolve) => {
      const webSocket = new WebSocket(bridge.webSocketUrl, { origin });
      webSocket.on("open", () => resolve(true));
      webSocket.on("error", () => resolve(false));
      t.after(() => webSocket.terminate());
    });
  const origin = new URL(bridge.url).origin;
  assert.equal(await opened("http://elsewhere.example"), false);
  assert.equal(await opened("https://elsewhere.example"), false);
  assert.equal(await opened("null"), false);
  assert.equal(await opened(origin), true);
  assert.equal(await opened(origin.replace("http:", "https:")), true); // behind something that encrypts
});

/** The status and the content of a path, which is sent as it is. */
function got(bridge, path) {
  const { hostname: host, port } = new URL(bridge.url);
  return new Promise((resolve, reject) => {
    const request = http.request({ host, port, path }, (response) => {
      let content = "";
      response.on("data", (data) => (content += data));
      response.on("end", () => resolve({ status: response.statusCode, content, location: response.headers.location }));
    });
    request.on("error", reject).end();
  });
}

test("it serves the editor and the client, and nothing else", needsWebSockets, async (t) => {
  const { bridge } = await bridged(t);
  assert.equal((await got(bridge, "/")).location, "/examples/editor/");
  for (const [path, part] of [
    ["/examples/editor/", "<title>"],
    ["/examples/editor/editor.js?1", "bind("],
    ["/examples/notes/?user=ann", "<title>"],
    ["/clients/js/richd.js", "export class Client"],
  ]) {
    const { status, content } = await got(bridge, path);
    assert.equal(status, 200, path);
    assert.ok(content.includes(part), path);
  }
  for (const path of [
    "/clients/js/../../README.md",
    "/clients/js/%2e%2e/%2e%2e/README.md",
    "/clients/js/..%2f..%2fREADME.md",
    "/clients/js/tests/fake.js",
    "/clients/js/package.json",
    "/clients/js/",
    "/examples/editor/run",
    "/etc/passwd",
    "//",
    "/quill/quill.js",
  ]) {
    assert.equal((await got(bridge, path)).status, 404, path);
  }
});
