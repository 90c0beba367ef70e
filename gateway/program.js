#!/usr/bin/env node
// A gateway as a program.
//
//     richd-gateway --settings FILE                       serves browsers
//     richd-gateway import STORE --settings FILE [LIST]   gives the documents in LIST, else in the standard input, the place STORE
//
// A line of LIST begins with the name of a document, as those that `richd info --documents` and `richd dump` print.

import { readFileSync } from "node:fs";
import http from "node:http";
import path from "node:path";
import { pathToFileURL } from "node:url";
import { parseArgs } from "node:util";
import { createGateway } from "./gateway.js";
import { HOOKS } from "./settings.js";

const USAGE = "usage: richd-gateway --settings FILE, or richd-gateway import STORE --settings FILE [LIST]";
const PATIENCE = 10_000; // milliseconds that a request may take to come
const OWN = ["127.0.0.1", "localhost", "[::1]", "::1"];
const FIELDS = ["listen", "watch", "name", "stores", "readers", "writers", "guests", "names", "data", "etcd", "rule", "term", "recall", "recheck", "origins", "hosts", "address", "archive", "user", "module", "anybody", "limits"];

/** @param {any} text @param {string} field */
function addressIn(text, field) {
  const [, host, port] = /^(.+):(\d+)$/.exec(text) ?? [];
  if (host === undefined || Number(port) > 65_535) throw new Error(`${field}: ${JSON.stringify(text)} isn't HOST:PORT`);
  return { host: host.replace(/^\[(.*)\]$/, "$1"), port: Number(port), shown: host };
}

function readSettings(file) {
  let settings;
  try {
    settings = JSON.parse(readFileSync(file, "utf8"));
  } catch (error) {
    throw new Error(`${file} can't be read: ${error.message}`);
  }
  const unknown = Object.keys(settings).filter((field) => !FIELDS.includes(field));
  if (unknown.length > 0) throw new Error(`${file}: there is no setting ${unknown.join(", ")}`);
  return settings;
}

/** What decides who connects, and what he may do. */
async function hooksOf({ user, module, anybody = false }, file, isOwn) {
  const hooks = {};
  if (module !== undefined) {
    const found = await import(pathToFileURL(path.resolve(path.dirname(file), module)).href);
    for (const hook of HOOKS) if (found[hook] !== undefined) hooks[hook] = found[hook];
    if (Object.keys(hooks).length === 0) throw new Error(`module: it exports none of ${HOOKS.join(", ")}`);
  }
  if (user !== undefined) {
    if (typeof user?.header !== "string") throw new Error("user: header is the name of a header");
    if (hooks.authorize !== undefined) throw new Error("user and the module's authorize both say who connects: leave one out");
    hooks.authorize = ({ headers }) => headers[user.header.toLowerCase()] || null;
  }
  if (hooks.authorize === undefined && !isOwn && anybody !== true) {
    throw new Error("nothing says who connects, and listen isn't this machine's: give module, user, or anybody: true");
  }
  return hooks;
}

/** @param {http.Server} server @param {{ host: string, port: number, shown: string }} address @returns {Promise<string>} */
function listening(server, { host, port, shown }) {
  return new Promise((resolve, reject) => {
    server.once("error", reject);
    server.listen(port, host, () => resolve(`http://${shown}:${/** @type {any} */ (server.address()).port}/`));
  });
}

async function serve(file) {
  const settings = readSettings(file);
  const { listen = "127.0.0.1:8080", watch, user, module, anybody, ...others } = settings;
  const address = addressIn(listen, "listen");
  const watched = watch === undefined ? undefined : addressIn(watch, "watch");
  const hooks = await hooksOf({ user, module, anybody }, file, OWN.includes(address.shown));
  const log = (event) => console.error(JSON.stringify(event));
  const gateway = await createGateway({ ...others, ...hooks, log, hidesMetrics: watched !== undefined });

  const server = http.createServer({ connectionsCheckingInterval: PATIENCE / 10 }, (request, response) => {
    if (!gateway.handleRequest(request, response)) response.writeHead(404).end("no such page\n");
  });
  server.headersTimeout = server.requestTimeout = PATIENCE;
  server.on("connection", (socket) => gateway.handleConnection(socket));
  server.on("upgrade", (request, socket, head) => gateway.handleUpgrade(request, socket, head));
  console.log(`listening ${await listening(server, address)}`);
  const watching = http.createServer((request, response) => {
    if (!gateway.handleWatch(request, response)) response.writeHead(404).end("no such page\n");
  });
  if (watched !== undefined) console.log(`watching ${await listening(watching, watched)}`);
  process.on("uncaughtException", (error) => {
    gateway.log("a fault of the gateway", { error: error.stack });
    process.exit(1);
  });
  gateway.log("begins", { listen, stores: [...gateway.stores.keys()] });

  const end = async (signal) => {
    gateway.log("ends", { signal });
    server.close();
    watching.close();
    await gateway.close();
    process.exit(0);
  };
  for (const signal of ["SIGTERM", "SIGINT"]) process.once(signal, () => end(signal));
  process.on("SIGHUP", () => {
    try {
      const { stores, origins } = readSettings(file);
      for (const store of stores) gateway.addStore(store);
      gateway.origins = origins;
      gateway.log("settings read again", { stores: [...gateway.stores.keys()] });
    } catch (error) {
      gateway.log("settings can't be read again", { error: error.message });
    }
  });
}

async function take(store, file, list) {
  const { listen, watch, user, module, anybody, ...others } = readSettings(file);
  if (!others.stores?.some(({ name }) => name === store)) throw new Error(`${file} has no store ${store}`);
  const docs = [...new Set(readFileSync(list ?? 0, "utf8").split("\n").map((line) => line.split(" ")[0]).filter(Boolean))];
  const wrong = docs.filter((doc) => !/^[A-Za-z0-9._-]{1,64}$/.test(doc));
  if (wrong.length > 0) throw new Error(`${JSON.stringify(wrong[0])} is no name of a document`);
  const { Etcd } = await import("./etcd.js");
  const { EtcdPlaces, RuledPlaces } = await import("./places.js");
  const { checked } = await import("./settings.js");
  const { lock } = await import("./lock.js");
  const { etcd, data, rule } = checked(others);
  const unlock = etcd === undefined ? await lock(data) : () => {};
  const client = etcd && new Etcd(etcd);
  const places = client ? new EtcdPlaces({ etcd: client, stores: () => [] }) : new RuledPlaces({ rule, folder: data });
  const elsewhere = await places.take(docs, store);
  await places.close();
  client?.close();
  unlock();
  for (const doc of elsewhere) console.log(`${doc} has another place`);
  console.log(`${docs.length - elsewhere.length} documents of ${docs.length} are in ${store}`);
  if (elsewhere.length > 0) process.exitCode = 1;
}

async function main() {
  const { values, positionals } = parseArgs({ options: { settings: { type: "string" } }, allowPositionals: true });
  const [command, store, list] = positionals;
  if (values.settings === undefined) throw new Error(USAGE);
  if (command === undefined) return serve(values.settings);
  if (command !== "import" || store === undefined || positionals.length > 3) throw new Error(USAGE);
  await take(store, values.settings, list);
}

main().catch((error) => {
  console.error(error.message);
  process.exit(2);
});
