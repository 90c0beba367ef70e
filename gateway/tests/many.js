// Many browsers on a few documents, as bare sessions: all follow, some type, and a few read nothing. checks/gateway.py runs it.
// usage: node many.js SECONDS [BROWSERS] [TYPING] [DOCUMENTS] [SILENT]
//
// Each that reads gets each revision of its document once and in order, no edit is lost or taken twice, and what the gateway's memory grows by,
// beside what the browsers themselves take, is bounded by what the silent ones may have unsent.

import path from "node:path";
import { once } from "node:events";
import { webSockets } from "../websockets.js";
import { GatewayProgram, Richd, folderFor, pause, until } from "./programs.js";

const [seconds = 20, browsers = 2_000, typing = 200, documents = 20, silent = 3] = process.argv.slice(2).map(Number);
const PAUSE = 400; // milliseconds between two edits of one browser
const EACH = 2 << 20; // bytes of the gateway's memory that a silent browser may cost: what it may have unsent, and the buffers of that
const SPARE = 96 << 20; // and all others that read and type
const { WebSocket } = webSockets();
const endings = [];
const test = { after: (ending) => endings.push(ending) };
const faults = [];
const fault = (what) => faults.push(what) > 20 || console.log(`FAULT  ${what}`);
const waits = [];
const lags = [];
let news = 0;

const store = new Richd(test, "--sources", "256", "--docs", "256", "--slot", "1000000");
await store.serve();
const gateway = new GatewayProgram(test, () => ({
  stores: [{ name: "s1", host: "127.0.0.1", port: store.port }], data: path.join(folderFor(test), "data"), names: 200,
  limits: { userSessions: 100_000, userMessages: 1_000_000, userNames: 1_000 },
}), "ignore");
await gateway.start();

/** A browser without a client: a line it sends, a line it gets. */
class Bare {
  taken = [];
  #waiting = [];
  #told;

  constructor(id) {
    this.id = id;
    this.doc = `d${id % documents}`;
  }

  async begin() {
    this.socket = new WebSocket(gateway.url);
    this.socket.on("message", (bytes) => {
      for (const line of bytes.toString().split("\n")) if (line !== "") this.#take(line);
    });
    await once(this.socket, "open");
    await this.ask({ do: "hello", source: `token${this.id}` });
    if (this.id < documents) await this.ask({ do: "create", doc: this.doc, n: 1, ops: [{ insert: "\n" }] });
    this.n = this.id < documents ? 2 : 1;
    const { rev } = await this.ask({ do: "fetch", doc: this.doc });
    this.#told = this.base = rev;
    await this.ask({ do: "subscribe", doc: this.doc, rev });
  }

  ask(message) {
    return new Promise((resolve) => {
      this.#waiting.push(resolve);
      this.socket.send(JSON.stringify(message) + "\n");
    });
  }

  async type(end) {
    await pause(Math.random() * PAUSE);
    while (performance.now() < end) {
      const began = performance.now();
      const { ok, rev, code } = await this.ask({ do: "edit", doc: this.doc, n: this.n, base: this.base, ops: [{ insert: `@${Math.round(began)} ` }] });
      if (ok !== "taken") return fault(`an edit of ${this.id} is answered ${code ?? ok}`);
      waits.push(performance.now() - began);
      this.taken.push(rev);
      this.n += 1;
      this.base = rev;
      await pause(PAUSE * (0.5 + Math.random()));
    }
  }

  #take(text) {
    const line = JSON.parse(text);
    if (line.news === undefined) return this.#waiting.shift()(line);
    news += 1;
    if (line.news !== this.#told + 1) fault(`browser ${this.id} got revision ${line.news} after ${this.#told}`);
    this.#told = line.news;
    const began = /@(\d+) /.exec(text);
    if (began !== null && this.id % 10 === 0) lags.push(performance.now() - Number(began[1]));
  }

  get told() {
    return this.#told;
  }
}

const all = Array.from({ length: browsers }, (_, id) => new Bare(id));
await Promise.all(all.slice(0, documents).map((bare) => bare.begin()));
for (let from = documents; from < browsers; from += 100) await Promise.all(all.slice(from, from + 100).map((bare) => bare.begin()));
const deaf = Array.from({ length: silent }, (_, index) => new Bare(browsers + index));
for (const bare of deaf) await bare.begin();
for (const { socket } of deaf) socket.pause();
const readers = all;

const before = await gateway.metrics();
const began = performance.now();
// the silent ones ask and ask, and read nothing of it
for (const { socket, doc } of deaf) for (let k = 0; k < 2_000; k += 1) socket.send(`{"do":"fetch","doc":"${doc}"}\n`);
let most = 0;
const watch = setInterval(async () => (most = Math.max(most, (await gateway.metrics()).get("process_resident_memory_bytes"))), 1_000);
await Promise.all(readers.slice(0, typing).map((bare) => bare.type(began + 1_000 * seconds)));
const took = (performance.now() - began) / 1_000;
clearInterval(watch);
const newest = new Map();
for (const { doc, taken } of readers) newest.set(doc, Math.max(newest.get(doc) ?? 1, ...taken));
await until(() => readers.every(({ doc, told }) => told === newest.get(doc)), "all news", 60_000).catch((error) => fault(error.message));
const after = await gateway.metrics();
await store.kill();
const dumped = store.dump();
for (let index = 0; index < documents; index += 1) {
  const doc = `d${index}`;
  const revs = readers.filter((bare) => bare.doc === doc).flatMap(({ taken }) => taken);
  if (new Set(revs).size !== revs.length) fault(`${doc}: two edits made one revision`);
  if (dumped.get(doc).rev !== revs.length + 1) fault(`${doc}: ${revs.length} edits, revision ${dumped.get(doc).rev}`);
}
const grown = most - before.get("process_resident_memory_bytes");
if (grown > silent * EACH + SPARE) fault(`the gateway's memory has grown by ${grown >> 20} MiB`);
const at = (list, part) => (list.sort((one, other) => one - other)[Math.floor(list.length * part)] ?? 0).toFixed(0);
const processor = after.get("process_cpu_seconds_total") - before.get("process_cpu_seconds_total");
console.log(`${faults.length === 0 ? "ok" : "FAILED"}: ${browsers} browsers, ${typing} type in ${documents} documents, ${silent} read nothing, ${took.toFixed(0)} s: `
  + `${waits.length} edits, none lost, ${Math.round(news / took)} lines of news a second; reply p50 ${at(waits, 0.5)}, p99 ${at(waits, 0.99)} ms; `
  + `seen p50 ${at(lags, 0.5)}, p99 ${at(lags, 0.99)} ms; memory ${before.get("process_resident_memory_bytes") >> 20} to ${most >> 20} MiB; ${Math.round((100 * processor) / took)}% of a processor`);
for (const ending of endings.reverse()) await ending();
process.exit(faults.length === 0 ? 0 : 1);
