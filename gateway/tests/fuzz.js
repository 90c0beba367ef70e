// Many browsers, as programs with the JavaScript client, that write at random through the gateway, over kills -9 of the store and of the gateway
// and cuts of the browsers. checks/gateway.py runs it. usage: node fuzz.js SECONDS [BROWSERS] [DOCUMENTS] [lend [full | etcd]]
//
// In one half of the documents only characters are put in, each one another: at the end each is there once. In the other half the browsers
// delete, format and undo too. At the end all documents of all browsers hold what `richd dump` has, and so does what each `change` made of the
// first contents.
//
// With `lend` a document has three names for all of its browsers, a term of a second and a half, and the browsers are away for longer now and
// then. So names are lent on. What was sent by then without a reply is told as in doubt, and is there once or not at all; what finds no name is
// told as refused, and isn't there. With `full` besides, the gateway's file of leases can't grow now and then, so that a line of it is cut short;
// with `etcd` leases and places are in etcd, which is killed now and then.

import { execFileSync } from "node:child_process";
import { statSync } from "node:fs";
import path from "node:path";
import { webSockets } from "../websockets.js";
import { connect } from "../../clients/js/node.js";
import { EtcdProgram, GatewayProgram, Richd, folderFor, needsEtcd, pause } from "./programs.js";

const [lends, trouble] = [process.argv[5] === "lend", process.argv[6]];
if (trouble === "etcd" && needsEtcd.skip) {
  console.log(`skipped: ${needsEtcd.skip}`);
  process.exit(0);
}
const [seconds = 60, browsers = 100, documents = 20] = process.argv.slice(2, 5).map(Number);
const TERM = 1_500; // milliseconds, where names are lent on
const LENDING = { names: 3, writers: 2, guests: 2, term: TERM / 86_400_000 };
const STORE_KILLS = 4_000; // milliseconds between two, half as many to half as many more
const GATEWAY_KILLS = 9_000;
const CUTS = 400;
const TROUBLES = 2_000; // full disks, kills of etcd
const LONGEST = 120_000; // milliseconds until all is settled
const { WebSocket } = webSockets();

const endings = [];
const test = { after: (ending) => endings.push(ending) };
const random = (below) => Math.floor(Math.random() * below);
const count = { edits: 0, undos: 0, "kills of the store": 0, "kills of the gateway": 0, cuts: 0, aways: 0, "full disks": 0, "kills of etcd": 0 };
const troubles = {};
const differences = [];
const differ = (what) => differences.push(what) > 20 || console.log(`DIFFERENCE  ${what}`);
const told = (error) => (troubles[error.message] = (troubles[error.message] ?? 0) + 1);

const store = new Richd(test, "--sources", "256", "--docs", "256", "--cell", "1000000", "--slot", "1000000");
await store.serve();
const data = path.join(folderFor(test), "data");
const etcd = trouble === "etcd" ? new EtcdProgram(test) : undefined;
await etcd?.start();
const gateway = new GatewayProgram(test, () => ({
  name: "f", stores: [{ name: "s1", host: "127.0.0.1", port: store.port }], ...(etcd === undefined ? { data } : { etcd: { urls: etcd.urls } }), ...(lends ? LENDING : {}), limits: { userSessions: 10_000, userMessages: 1_000_000, userNames: 1_000 },
}), process.env.LOG ? "inherit" : "ignore");
await gateway.start();

const open = new Set();
const put = new Map(); // doc -> the characters that were put in
const inDoubt = new Set(); // `doc character`
const refused = new Set();

/** A character that no other of the document is like. */
function characterFor(doc) {
  if (!put.has(doc)) put.set(doc, []);
  const here = put.get(doc);
  const at = here.length;
  here.push(String.fromCharCode(at < 20_000 ? 0x4e00 + at : 0xac00 + at - 20_000));
  return here.at(-1);
}

/** One who writes in one document. */
class Writer {
  isAway = false;

  constructor(id) {
    this.id = id;
    this.doc = `d${id % documents}`;
    this.onlyInserts = (id % documents) % 2 === 0;
  }

  async begin() {
    const writer = this;
    class Socket extends WebSocket {
      constructor(url) {
        super(writer.isAway ? "ws://127.0.0.1:1/" : url);
        writer.socket = this;
        open.add(this);
        this.on("close", () => open.delete(this));
      }
    }
    this.client = await connect({ url: gateway.url, WebSocket: Socket, timeout: 300_000 });
    this.document = await this.client.open(this.doc, { create: [{ insert: "\n" }] });
    this.shown = this.document.contents;
    this.document.addEventListener("change", ({ delta }) => (this.shown = this.shown.compose(delta)));
    this.document.addEventListener("trouble", ({ error, delta }) => {
      told(error);
      this.note(refused, delta);
      if (!lends || error.name !== "TooManySources") differ(`${this.doc}: browser ${this.id} lost ${JSON.stringify(delta.ops).slice(0, 200)} by ${error.message}`);
    });
    this.document.addEventListener("doubt", ({ delta }) => {
      told({ message: "in doubt" });
      this.note(inDoubt, delta);
      if (!lends) differ(`${this.doc}: browser ${this.id} has something in doubt`);
    });
    let last = 0;
    this.document.addEventListener("progress", () => {
      if (this.document.revision < last) differ(`${this.doc}: revision ${this.document.revision} after ${last}`);
      last = this.document.revision;
    });
  }

  note(kind, { ops }) {
    for (const { insert } of ops) for (const character of insert ?? "") kind.add(`${this.doc} ${character}`);
  }

  apply(ops) {
    this.document.apply(ops);
    this.shown = this.document.contents;
    count.edits += 1;
  }

  act() {
    const { length } = this.document;
    const place = random(length);
    const retain = place > 0 ? [{ retain: place }] : [];
    const mayErase = !this.onlyInserts && length > 300;
    if (mayErase && random(10) < 6) return this.apply([...retain, { delete: 1 + random(Math.min(40, length - place)) }]);
    if (!this.onlyInserts && random(8) === 0 && place < length) return this.apply([...retain, { retain: length - place, attributes: { bold: random(2) === 0 ? true : null } }]);
    this.apply([...retain, { insert: characterFor(this.doc) }]);
  }

  async undo() {
    count.undos += 1;
    await this.client.undo(this.doc, { timeout: 300_000 }).catch(told);
  }

  async write() {
    while (!isOver) {
      await pause(random(30));
      this.act();
      if (!this.onlyInserts && random(40) === 0) await this.undo();
      const saved = this.document.flush().catch(() => {}); // told as trouble
      if (lends && random(25) === 0) await this.goAway();
      await saved;
    }
  }

  async goAway() {
    count.aways += 1;
    this.isAway = true;
    this.socket.terminate();
    await pause(TERM + random(2 * TERM));
    this.isAway = false;
  }
}

async function every(milliseconds, act) {
  while (!isOver) {
    await pause(milliseconds / 2 + random(milliseconds));
    if (!isOver) await act();
  }
}

async function kill(what, program, again) {
  count[what] += 1;
  await program.kill();
  await pause(random(300));
  await again();
}

/** The gateway's files may have so many bytes. It may be gone just now. */
function bound(bytes) {
  try {
    execFileSync("prlimit", [`--fsize=${bytes}:unlimited`, "--pid", String(gateway.pid)], { stdio: "ignore" });
  } catch {
    // the next one is bounded again
  }
}

async function fillDisk() {
  count["full disks"] += 1;
  try {
    bound(statSync(path.join(data, "leases-s1")).size + random(40));
  } catch {
    return; // it is being written anew
  }
  await pause(random(1_000));
  bound("unlimited");
}

let isOver = false;
const writers = Array.from({ length: browsers }, (_, id) => new Writer(id));
await Promise.all(writers.slice(0, documents).map((writer) => writer.begin()));
for (let from = documents; from < browsers; from += 50) await Promise.all(writers.slice(from, from + 50).map((writer) => writer.begin()));
const began = performance.now();
setTimeout(() => (isOver = true), 1_000 * seconds);
await Promise.all([
  ...writers.map((writer) => writer.write()),
  every(STORE_KILLS, () => kill("kills of the store", store, () => store.serve())),
  every(GATEWAY_KILLS, () => kill("kills of the gateway", gateway, () => gateway.start())),
  trouble === "full" ? every(TROUBLES, fillDisk) : undefined,
  trouble === "etcd" ? every(TROUBLES, () => kill("kills of etcd", etcd, () => etcd.start(etcd.port))) : undefined,
  every(CUTS, () => {
    count.cuts += 1;
    [...open][random(open.size)]?.terminate();
  }),
]);
const took = (performance.now() - began) / 1_000;

await Promise.all(writers.map(({ document }) => document.flush().catch(() => {})));
const isSettled = () => {
  const newest = new Map();
  for (const { doc, document } of writers) newest.set(doc, Math.max(newest.get(doc) ?? 0, document.revision));
  return writers.every(({ doc, document }) => document.isSaved && document.revision === newest.get(doc));
};
for (const end = performance.now() + LONGEST; !isSettled(); await pause(50)) {
  if (performance.now() < end) continue;
  differ("not settled");
  break;
}
const metrics = await gateway.metrics();
await store.kill();
const dumped = store.dump();
const spelled = (ops) => JSON.stringify(ops.map(({ insert, attributes = {} }) => [insert, Object.entries(attributes).sort()]));
for (const { id, doc, document, shown } of writers) {
  const { ops } = dumped.get(doc);
  if (spelled(document.contents.ops) !== spelled(ops)) differ(`${doc}: browser ${id} has another document than richd dump`);
  if (spelled(shown.ops) !== spelled(ops)) differ(`${doc}: browser ${id} shows something else than richd dump has`);
}
let [lost, twice] = [0, 0];
for (const doc of new Set(writers.filter(({ onlyInserts }) => onlyInserts).map((writer) => writer.doc))) {
  const found = new Map();
  for (const { insert } of dumped.get(doc).ops) for (const character of insert) found.set(character, (found.get(character) ?? 0) + 1);
  for (const character of put.get(doc) ?? []) {
    const [times, name] = [found.get(character) ?? 0, `${doc} ${character}`];
    if (times > 1) twice += 1;
    if (times === 0 && !refused.has(name) && !inDoubt.has(name)) lost += 1;
    if (times > 0 && refused.has(name)) differ(`${name} is there, and was told as refused`);
  }
}
if (lost + twice > 0) differ(`${lost} lost, ${twice} twice`);
const saidTroubles = Object.entries(troubles).map(([name, times]) => `${times} ${name}`).join(", ");
if (saidTroubles) console.log(`        told: ${saidTroubles}`);
console.log(`        the last gateway: ${["reply_milliseconds{quantile=\"0.5\"}", "reply_milliseconds{quantile=\"0.99\"}", "stale_total", "cuts_total"].map((name) => `${name} ${metrics.get(name)}`).join(", ")}`);
const said = Object.entries(count).map(([what, times]) => `${times} ${what}`).join(", ");
console.log(`${differences.length === 0 ? "ok" : "FAILED"}: ${browsers} browsers, ${documents} documents, ${took.toFixed(0)} s: ${said}; ${lost} lost, ${twice} twice, ${differences.length} differences`);
for (const ending of endings.reverse()) await ending();
process.exit(differences.length === 0 ? 0 : 1);
