// The programs of a cluster together: stores, etcd, gateways, HAProxy, browsers; how they are killed, and how a store is added.

import { readFileSync, writeFileSync } from "node:fs";
import net from "node:net";
import { Etcd } from "../../etcd.js";
import { EtcdProgram, GatewayProgram, Richd, pause } from "../programs.js";
import { Browsers, Proxy, compared, usage } from "./programs.js";

const TOGETHER = 2; // typers of a document
const PER_PROCESS = 1_000; // browsers of a process
const NEW = 24; // documents that are created once the fourth store is there
export const PLACES = 64; // of a store
const TURN = 5_000; // milliseconds in which a store and a gateway are killed, each once
const SOON = 30; // milliseconds after which a program is killed, at most, once all have typed at the same time
const AWAY = 500; // milliseconds until it is started again
const RELOADED = 10; // one of so many pages in which somebody types is loaded anew in that time
const SHAPE = ["--sources", "256", "--docs", "256", "--cell", "1000000", "--slots", "64"];
// Of each store's places each gateway has 31: so one can write under all names that the other has lent.
const SHARE = { readers: 2, writers: 14, guests: 14, names: 100 };

export class Cluster {
  #test;
  stores = [];
  gateways = [];
  browsers = [];
  phases = [];
  killed = 0; // programs
  /** @type {{ time: number, pid: string, bytes: number }[]} the memory of the gateways */
  memory = [];
  isOver = false;

  /** @param {{ after: (ending: () => any) => void }} test  by which its programs end */
  constructor(test) {
    this.#test = test;
    this.etcd = new EtcdProgram(test);
    this.proxy = new Proxy(test);
  }

  async begin() {
    for (let count = 0; count < 3; count += 1) await this.#addStore();
    await this.etcd.start();
    this.keys = new Etcd({ urls: this.etcd.urls });
    for (const name of ["g1", "g2"]) {
      const gateway = new GatewayProgram(this.#test, () => this.#settings(name), process.env.LOG ? "inherit" : "ignore");
      this.gateways.push(Object.assign(gateway, { name }));
      await gateway.start();
    }
    await this.proxy.start(this.gateways);
  }

  async #addStore() {
    const store = Object.assign(new Richd(this.#test, ...SHAPE), { name: `s${this.stores.length + 1}` });
    this.stores.push(store);
    await store.serve();
  }

  // The newest store takes the new documents, once there is a fourth.
  #settings(name) {
    const takesNew = (index) => this.stores.length <= 3 || index === 3;
    const stores = this.stores.map((store, index) => ({ name: store.name, host: "127.0.0.1", port: store.port, new: takesNew(index) }));
    return { name, stores, ...SHARE, etcd: { urls: this.etcd.urls }, user: { header: "x-remote-user" } };
  }

  /** Opens all sessions. How many documents they share. */
  async open(sessions, typing) {
    const documents = Math.max(1, Math.floor(typing / TOGETHER));
    const processes = Math.ceil(sessions / PER_PROCESS);
    const shares = Array.from({ length: processes }, () => ({ url: `ws://127.0.0.1:${this.proxy.port}`, typers: [], followers: [] }));
    for (let k = 0; k < sessions; k += 1) {
      const number = k % documents;
      const doc = `d${number}`;
      const { typers, followers } = shares[number % processes];
      const [place, among] = [Math.floor(k / documents), Math.ceil((typing - number) / documents)];
      if (k < typing) typers.push({ id: `t${k}`, doc, place, among, isPlain: number % 4 < 2 });
      else followers.push({ id: `f${k}`, doc });
    }
    this.browsers = shares.map(() => new Browsers(this.#test));
    await Promise.all(this.browsers.map((process, index) => process.do("begin", shares[index])));
    return documents;
  }

  all(act, about) {
    return Promise.all(this.browsers.map((process) => process.do(act, about)));
  }

  /** A part of the run with times of its own. */
  async phase(name, work, apart) {
    await this.all("phase", { name, apart });
    const [before, began] = [usage(), performance.now()];
    const value = await work();
    const took = (performance.now() - began) / 1_000;
    this.phases.push({ name, took, used: compared(before, usage(), took) });
    await this.all("phase", { name: "between" });
    return value;
  }

  async watchMemory() {
    for (; !this.isOver; await pause(500)) {
      const time = performance.now();
      for (const [pid, { bytes }] of usage().gateways ?? []) this.memory.push({ time, pid, bytes });
    }
  }

  /** The most memory that a gateway had since a time. */
  most(pid, since) {
    return Math.max(0, ...this.memory.filter((it) => it.pid === pid && it.time >= since).map(({ bytes }) => bytes));
  }

  /** Kills a store and a gateway, and each time starts it again, in turns; pages are loaded anew, too. */
  async kills(milliseconds) {
    const turns = Math.max(1, Math.floor(milliseconds / TURN));
    const step = milliseconds / turns / 2;
    for (let turn = 0; turn < turns; turn += 1) {
      await this.all("reload", { oneOf: RELOADED });
      await this.#kill(this.stores[turn % this.stores.length], (store) => store.serve(), step);
      await this.#kill(this.gateways[turn % this.gateways.length], (gateway) => gateway.start(), step);
    }
  }

  async #kill(program, start, milliseconds) {
    const end = performance.now() + milliseconds;
    await pause(milliseconds * (0.3 + 0.4 * Math.random()));
    await this.all("hurry"); // so that much is on its way
    await pause(Math.random() * SOON);
    await program.kill();
    this.killed += 1;
    await pause(AWAY);
    await start(program);
    await pause(end - performance.now());
  }

  /** A fourth store: the settings are written anew, and the gateways are told to read them. */
  async grow() {
    await this.#addStore();
    for (const gateway of this.gateways) {
      writeFileSync(gateway.file, JSON.stringify({ ...JSON.parse(readFileSync(gateway.file, "utf8")), ...this.#settings(gateway.name) }));
      gateway.signal("SIGHUP");
    }
    await pause(1_000);
    const docs = Array.from({ length: NEW }, (_, index) => `new${index}`);
    await this.browsers[0].do("create", { docs });
    return docs;
  }

  /** Takes all places of a store by connections that say nothing, and gives what ends them. */
  async takePlaces(store) {
    for (const gateway of this.gateways) gateway.signal("SIGSTOP"); // else they are there first
    await store.kill();
    await store.serve();
    const silent = Array.from({ length: PLACES }, () => net.connect(store.port, "127.0.0.1").on("error", () => {}));
    await Promise.all(silent.map((socket) => new Promise((resolve) => socket.once("connect", resolve))));
    await pause(200);
    const further = net.connect(store.port, "127.0.0.1").on("error", () => {});
    const isFull = await Promise.race([new Promise((resolve) => further.once("close", () => resolve(true))), pause(2_000)]);
    for (const gateway of this.gateways) gateway.signal("SIGCONT");
    if (!isFull) throw new Error(`${store.name} had a place left`);
    return () => silent.forEach((socket) => socket.destroy());
  }

  /** In which store each document is, by etcd. */
  async places() {
    return new Map((await this.keys.under("place/")).map(({ key, value }) => [key.slice("place/".length), value]));
  }

  /** Ends the typing, and gives what all browsers saw, once they have the same. */
  async finish() {
    const newest = {};
    for (const revisions of await this.all("stop")) {
      for (const [doc, rev] of Object.entries(revisions)) newest[doc] = Math.max(newest[doc] ?? 0, rev);
    }
    return this.all("finish", { newest });
  }

  /** Ends the gateways by SIGTERM, and gives their statuses; and the stores. */
  async end() {
    const statuses = [];
    for (const gateway of this.gateways) statuses.push(await gateway.kill("SIGTERM"));
    for (const store of this.stores) await store.kill();
    return statuses;
  }
}
