// Browsers that type, each for a user of his own, in a process of their own. attacks.js runs it.
// usage: node typers.js PORT BROWSERS DOCUMENTS
//
// A line of the standard input asks for what came since the last one: edits, how long their replies took, and how many browsers were cut off.
// With the line `end` they stop, and the answer has each edit that was acknowledged.

import { once } from "node:events";
import { createInterface } from "node:readline";
import { webSockets } from "../websockets.js";
import { pause } from "./programs.js";

const [port, browsers, documents] = process.argv.slice(2).map(Number);
const PAUSE = 500; // milliseconds between two edits of one browser
const { WebSocket } = webSockets();
let waits = [];
let isOver = false;
const acknowledged = [];
const cut = new Map(); // by which code -> browsers
const refused = new Map(); // code -> edits

class Typer {
  #waiting = [];

  constructor(id) {
    this.id = id;
    this.doc = `typed${id % documents}`;
  }

  async begin() {
    this.socket = new WebSocket(`ws://127.0.0.1:${port}/`, { headers: { "x-user": `typer${this.id}` } });
    this.socket.on("error", () => {});
    this.socket.on("message", (bytes) => {
      for (const line of bytes.toString().split("\n")) if (line !== "" && !/^\{[^{]{0,80}"(news|ended)":/.test(line)) this.#waiting.shift()?.(JSON.parse(line));
    });
    await once(this.socket, "open");
    this.socket.on("close", (code) => {
      if (!isOver) cut.set(code, (cut.get(code) ?? 0) + 1);
      for (const settle of this.#waiting.splice(0)) settle({});
    });
    await this.ask({ do: "hello", source: `token${this.id}` });
    if (this.id < documents) await this.ask({ do: "create", doc: this.doc, n: 1, ops: [{ insert: "\n" }] });
    this.n = this.id < documents ? 2 : 1;
  }

  async follow() {
    this.base = (await this.ask({ do: "fetch", doc: this.doc })).rev;
    await this.ask({ do: "subscribe", doc: this.doc, rev: this.base });
  }

  ask(message) {
    return new Promise((resolve) => {
      if (this.socket.readyState !== WebSocket.OPEN) return resolve({});
      this.#waiting.push(resolve);
      this.socket.send(JSON.stringify(message) + "\n");
    });
  }

  async type() {
    await pause(Math.random() * PAUSE);
    while (!isOver && this.socket.readyState === WebSocket.OPEN) {
      const began = performance.now();
      const text = `@${this.id}.${this.n} `;
      const { ok, rev, code } = await this.ask({ do: "edit", doc: this.doc, n: this.n, base: this.base, ops: [{ insert: text }] });
      if (ok === "taken") {
        waits.push(performance.now() - began);
        acknowledged.push([this.doc, text]);
        this.n += 1;
        this.base = rev;
      } else if (code !== undefined) refused.set(code, (refused.get(code) ?? 0) + 1);
      await pause(PAUSE * (0.5 + Math.random()));
    }
  }
}

const all = Array.from({ length: browsers }, (_, id) => new Typer(id));
for (let from = 0; from < browsers; from += 20) await Promise.all(all.slice(from, from + 20).map((typer) => typer.begin()));
await Promise.all(all.map((typer) => typer.follow()));
const typing = Promise.all(all.map((typer) => typer.type()));
console.log("typing");

const at = (part) => Math.round(waits[Math.floor(waits.length * part)] ?? 0);
for await (const line of createInterface({ input: process.stdin })) {
  if (line === "end") {
    isOver = true;
    await Promise.race([typing, pause(10_000)]);
  }
  waits.sort((one, other) => one - other);
  const sums = { edits: waits.length, p50: at(0.5), p99: at(0.99), cut: Object.fromEntries(cut), refused: Object.fromEntries(refused) };
  waits = [];
  await new Promise((resolve) => process.stdout.write(JSON.stringify(line === "end" ? { ...sums, acknowledged } : sums) + "\n", resolve));
  if (line === "end") process.exit(0);
}
