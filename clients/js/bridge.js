#!/usr/bin/env node
// A bridge for browsers: the smallest use of the gateway. It serves the pages of examples/, and this folder, from which they load the client;
// their WebSockets are the gateway's. Whoever connects is who the address says, as ?user=ann, and may do all.
//
//     node clients/js/bridge.js HOST:PORT [--listen HOST:PORT] [--origin URL]... [--data FOLDER] [--quill FOLDER] [--pages FOLDER]
//         [--archive DATABASE]
//
// The first address is the one of `richd serve STORE --listen HOST:PORT`. It listens on 127.0.0.1:8080 unless it is told otherwise; port 0
// is one that is free. A page may connect that comes from a URL that is given, else one that was loaded from here by a name of this machine.
// The first FOLDER keeps which names were lent; the second holds quill.js and quill.snow.css, which the editor loads where they are given; the
// files of the last are served too, its index.html as the first page. Of DATABASE, an archive, pages get a document's versions.

import { readdirSync, realpathSync } from "node:fs";
import { readFile } from "node:fs/promises";
import http from "node:http";
import os from "node:os";
import path from "node:path";
import { fileURLToPath } from "node:url";
import { parseArgs } from "node:util";
import { createGateway } from "../../gateway/gateway.js";
import { webSockets as findWebSockets } from "../../gateway/websockets.js";

const HERE = path.dirname(fileURLToPath(import.meta.url));
const PAGES = ["/examples/editor/", "/examples/notes/"];
const SERVED = Object.fromEntries(["/clients/js/", ...PAGES].map((prefix) => [prefix, path.join(HERE, "../..", prefix)]));
/** @type {Record<string, string>} */
const TYPES = { ".html": "text/html", ".js": "text/javascript", ".css": "text/css", ".png": "image/png" };

/** The package ws. */
export const webSockets = /** @type {() => any} */ (findWebSockets);

/**
 * The files that are served, each by the path that it is asked for by. No other path leads to a file.
 * @param {Record<string, string>} folders
 * @returns {Map<string, string>}
 */
function filesIn(folders) {
  const files = new Map();
  for (const [prefix, folder] of Object.entries(folders)) {
    for (const entry of readdirSync(folder, { withFileTypes: true })) {
      if (entry.isFile() && path.extname(entry.name) in TYPES) files.set(prefix + entry.name, path.join(folder, entry.name));
    }
  }
  return files;
}

/**
 * Where a bridge to a store keeps which names it lent: it has to be there again at the next start.
 * @param {string} host
 * @param {number} port
 */
function dataFor(host, port) {
  const state = process.env.XDG_STATE_HOME ?? path.join(os.homedir(), ".local/state");
  return path.join(state, "richd-bridge", `${host.replace(/[^A-Za-z0-9.-]/g, "_")}-${port}`);
}

/**
 * Who a request is by: this is no sign-in, but a name to show to others.
 * @param {{ url?: string }} request
 */
function userOf({ url }) {
  return new URLSearchParams(url.split("?")[1]).get("user") || "anybody";
}

/**
 * Serves the pages, and their WebSockets by a gateway.
 * @param {object} options
 * @param {string} options.host  of richd
 * @param {number} options.port
 * @param {string} [options.listenHost]
 * @param {number} [options.listenPort]  0 is one that is free
 * @param {string[]} [options.origins]  of pages that may connect
 * @param {string} [options.data]  a folder that keeps which names were lent
 * @param {string} [options.quill]  a folder with Quill's files
 * @param {string} [options.pages]  a folder with pages of one's own
 * @param {string} [options.archive]  that has the documents' versions
 * @returns {Promise<{ url: string, webSocketUrl: string, close: () => Promise<void> }>}
 */
export async function startBridge({ host, port, listenHost = "127.0.0.1", listenPort = 0, origins, data = dataFor(host, port), quill, pages, archive }) {
  const files = filesIn({ ...(pages && { "/": pages }), ...SERVED, ...(quill && { "/quill/": quill }) });
  for (const page of ["/", ...PAGES]) if (files.has(page + "index.html")) files.set(page, files.get(page + "index.html"));
  // (nobody signs in, so all pages may be one user, who has all names then)
  const limits = { userNames: 120 };
  const gateway = await createGateway({ name: "bridge", stores: [{ name: "store", host, port }], data, origins, archive, authorize: userOf, limits });

  const server = http.createServer(async (request, response) => {
    const [pathname] = request.url.split("?");
    const file = files.get(pathname);
    if (file === undefined && pathname === "/") return response.writeHead(302, { location: PAGES[0] }).end();
    if (file === undefined) return gateway.handleRequest(request, response) || response.writeHead(404).end("no such page\n");
    try {
      const content = await readFile(file);
      response.writeHead(200, { "content-type": `${TYPES[path.extname(file)]}; charset=utf-8`, "cache-control": "no-cache" });
      response.end(content);
    } catch {
      response.writeHead(404).end("no such page\n");
    }
  });
  server.on("connection", (socket) => gateway.handleConnection(socket));
  server.on("upgrade", (request, socket, head) => gateway.handleUpgrade(request, socket, head));

  await new Promise((resolve, reject) => {
    server.once("error", reject);
    server.listen(listenPort, listenHost, () => resolve(undefined));
  });
  const address = `${listenHost}:${/** @type {import("node:net").AddressInfo} */ (server.address()).port}`;
  return {
    url: `http://${address}/`,
    webSocketUrl: `ws://${address}/`,
    async close() {
      server.close();
      await gateway.close();
    },
  };
}

/** @param {string} text @returns {[string, number]} */
function readAddress(text) {
  const at = text.lastIndexOf(":");
  return [text.slice(0, at), Number(text.slice(at + 1))];
}

async function main() {
  const { values, positionals } = parseArgs({
    options: {
      listen: { type: "string", default: "127.0.0.1:8080" },
      origin: { type: "string", multiple: true },
      data: { type: "string" },
      quill: { type: "string" },
      pages: { type: "string" },
      archive: { type: "string" },
    },
    allowPositionals: true,
  });
  if (positionals.length !== 1) throw new Error("usage: bridge.js HOST:PORT [--listen HOST:PORT] [--origin URL]... [--data FOLDER] [--quill FOLDER] [--pages FOLDER] [--archive DATABASE]");
  const [host, port] = readAddress(positionals[0]);
  const [listenHost, listenPort] = readAddress(values.listen);
  const { origin: origins, data, quill, pages, archive } = values;
  const bridge = await startBridge({ host, port, listenHost, listenPort, origins, data, quill, pages, archive });
  console.log(`bridge ${bridge.url}`);
  for (const signal of /** @type {const} */ (["SIGTERM", "SIGINT"])) process.once(signal, () => bridge.close().then(() => process.exit(0)));
}

const isProgram = process.argv[1] !== undefined && realpathSync(process.argv[1]) === fileURLToPath(import.meta.url);
if (isProgram) {
  main().catch((error) => {
    console.error(error.message);
    process.exitCode = 2;
  });
}
