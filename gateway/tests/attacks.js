// What users may try against a gateway, each beside others that type. checks/gateway_attacks.py runs it, and says what it does.
// usage: node attacks.js SECONDS [BROWSERS] [NAME..]

import { spawn } from "node:child_process";
import { once } from "node:events";
import { closeSync, existsSync, mkdirSync, openSync, readFileSync, rmSync, statfsSync, writeFileSync, writeSync } from "node:fs";
import http from "node:http";
import net from "node:net";
import path from "node:path";
import { createInterface } from "node:readline";
import { fileURLToPath } from "node:url";
import { EtcdProgram, ROOT, Richd, ended, folderFor, needsEtcd, pause, until } from "./programs.js";
import { Talk } from "./talk.js";

const [seconds = 10, browsers = 200] = process.argv.slice(2, 4).map(Number);
const wanted = process.argv.slice(4);
const PROGRAM = process.env.GATEWAY ?? path.join(ROOT, "gateway/program.js");
const DOCUMENTS = 20;
const MOST_HARMLESS = 900_000; // bytes a second, of whoever keeps to the limits
const STORE = ["--cell", "1048576", "--slot", "1048576", "--slots", "16", "--docs", "256", "--sources", "512"];
const LARGE_STORE = ["--cell", "4194304", "--slot", "4194304", "--slots", "8", "--docs", "64", "--sources", "512"];
const as = (user) => ({ headers: { "x-user": user }, perMessageDeflate: false });
const random = () => Math.random().toString(36).slice(2);
const megabytes = (kilobytes) => Math.round(kilobytes / 1_024);
const found = (pattern, text) => Number(pattern.exec(text)?.[1] ?? NaN);

/** A program with its lines, and how it ended. */
function started(it, command, words, options = {}) {
  const program = spawn(command, words, { stdio: ["pipe", "pipe", "pipe"], ...options });
  it.after(() => ended(program));
  program.stderr.on("data", () => {});
  program.lines = createInterface({ input: program.stdout })[Symbol.asyncIterator]();
  return program;
}

const lineOf = async (program) => (await program.lines.next()).value;

/** A store, a gateway over it, and browsers that type there. */
class Scene {
  endings = [];
  attackers = []; // their connections
  #typedAt = 0;
  #processorAt = 0;

  after(ending) {
    this.endings.push(ending);
  }

  async begin({ settings = () => ({}), command = [], data, shape = STORE } = {}) {
    this.store = new Richd(this, ...shape);
    await this.store.serve();
    this.data = data ?? path.join(folderFor(this), "data");
    this.rights = path.join(folderFor(this), "rights.mjs");
    writeFileSync(this.rights, `import { existsSync } from "node:fs";
export const authorize = ({ headers }) => (headers["x-user"] === "slow" ? new Promise(() => {}) : headers["x-user"] || null);
export const can = (user, doc) => user !== "revoked" || !existsSync(${JSON.stringify(this.rights + ".revoked")});
export const onCommand = ({ doc }) => (doc === "locked" ? undefined : true);
`);
    const file = path.join(folderFor(this), "settings.json");
    const stores = [{ name: "s1", host: "127.0.0.1", port: this.store.port }];
    writeFileSync(file, JSON.stringify({ listen: "127.0.0.1:0", data: this.data, stores, module: this.rights, ...settings(stores) }));
    const [program, ...words] = [...command, process.execPath, PROGRAM, "--settings", file];
    this.gateway = started(this, program, words);
    this.port = found(/:(\d+)\/$/, await lineOf(this.gateway));
    this.url = `ws://127.0.0.1:${this.port}/`;
    await until(async () => (await this.get("/healthz")).status === 200, "the gateway's store");
    this.typers = started(this, process.execPath, [fileURLToPath(new URL("typers.js", import.meta.url)), this.port, browsers, DOCUMENTS].map(String));
    await lineOf(this.typers);
  }

  get(page, headers = {}) {
    return new Promise((resolve, reject) => {
      http.get({ host: "127.0.0.1", port: this.port, path: page, headers: { "x-user": "somebody", ...headers } }, (response) => {
        let text = "";
        response.on("data", (part) => (text += part));
        response.on("end", () => resolve({ status: response.statusCode, text }));
      }).on("error", reject);
    });
  }

  /** What the browsers that type have seen since the last time, and what the gateway has taken of a processor. */
  async typed(line = "") {
    const [now, processor] = [performance.now(), this.processor];
    const share = Math.round((100_000 * (processor - this.#processorAt)) / (now - this.#typedAt));
    [this.#typedAt, this.#processorAt] = [now, processor];
    this.typers.stdin.write(line + "\n");
    return { ...JSON.parse(await lineOf(this.typers)), share };
  }

  get memory() {
    const { pid } = this.gateway;
    return this.gateway.exitCode === null && existsSync(`/proc/${pid}`) ? megabytes(found(/VmHWM:\s+(\d+)/, readFileSync(`/proc/${pid}/status`, "utf8"))) : NaN;
  }

  /** Seconds of a processor that the gateway has taken. */
  get processor() {
    const { pid } = this.gateway;
    if (this.gateway.exitCode !== null || !existsSync(`/proc/${pid}`)) return NaN;
    const [user, system] = readFileSync(`/proc/${pid}/stat`, "utf8").split(") ")[1].split(" ").slice(11, 13).map(Number);
    return (user + system) / 100;
  }

  async talk(user, token = random()) {
    const talk = new Talk(this.url, as(user));
    this.after(() => talk.socket.terminate());
    await Promise.race([once(talk.socket, "open"), once(talk.socket, "close")]);
    if (talk.socket._socket) this.attackers.push(talk.socket._socket);
    await talk.ask({ do: "hello", source: token });
    return talk;
  }

  /** Bytes that the attackers have sent. */
  get sent() {
    return this.attackers.reduce((sum, { bytesWritten, writableLength }) => sum + bytesWritten - writableLength, 0);
  }

  /** They go. */
  async endAttack() {
    for (const socket of this.attackers) socket.destroy();
    await pause(1_000);
  }

  /** One who sends as many bytes within so many seconds, as whoever types does: edits in a document of his own. */
  async harmless(bytes) {
    const zoe = await this.talk("zoe");
    const text = "x".repeat(1_000);
    const each = 1_100; // bytes of an edit's line
    const due = Math.min(bytes, MOST_HARMLESS * seconds) / each / seconds; // edits a second
    await zoe.ask({ do: "create", doc: "harmless", n: 1, ops: [{ insert: text }] });
    const began = performance.now();
    let n = 2;
    for (; performance.now() < began + 1_000 * seconds && zoe.code === null; await pause(50)) {
      const behind = Math.ceil((due * (performance.now() - began)) / 1_000) - (n - 2);
      const edits = Array.from({ length: Math.min(32, behind) }, () => ({ do: "edit", doc: "harmless", n: (n += 1) - 1, base: n - 2, ops: [{ insert: text }, { delete: 1_000 }] }));
      if (edits.length > 0) await zoe.ask(...edits);
    }
    return (n - 2) * each;
  }

  async end() {
    for (const ending of this.endings.reverse()) await ending();
  }
}

/** Writes as fast as it is taken, for some seconds. */
async function flood(talks, bytes, until_) {
  await Promise.all(talks.map(async ({ socket }) => {
    const raw = socket._socket;
    while (performance.now() < until_ && raw !== null && !raw.destroyed) {
      if (raw.writableLength < 1 << 20) raw.write(bytes);
      await pause(5);
    }
  }));
}

const frame = (first, bytes = Buffer.alloc(0)) => Buffer.concat([Buffer.from([first, 0x80 | bytes.length, 0, 0, 0, 0]), bytes]);
const many = (count, bytes) => Buffer.concat(Array(count).fill(bytes));
const talksOf = (scene, user, count) => Promise.all(Array.from({ length: count }, () => scene.talk(user)));

/** A document whose changes are wide, by a user: its last revision. */
async function wide(scene, doc, changes) {
  const eve = await scene.talk("eve");
  await eve.ask({ do: "create", doc, n: 1, ops: [{ insert: "x".repeat(9_000) }] });
  let rev = 1;
  for (let k = 0; k < changes && eve.code === null; k += 1) {
    const ops = Array.from({ length: 450 }, () => [{ retain: 1, attributes: { [`a${k % 3}`]: `${"v".repeat(20)}${k}` } }, { retain: 19 }]).flat();
    ({ rev = rev } = (await eve.ask({ do: "edit", doc, n: k + 2, base: rev, ops })) ?? {});
  }
  return rev;
}

const ATTACKS = {
  async "G1 changes that are wide, subscribed from far back"(scene, end) {
    const eve = await scene.talk("eve");
    await eve.ask({ do: "create", doc: "d", n: 1, ops: [] });
    let n = 2;
    for (; n < 25; n += 1) await eve.ask({ do: "edit", doc: "d", n, base: n - 1, ops: [{ insert: { i: "\u0001".repeat(10_800) } }] });
    await eve.ask({ do: "edit", doc: "d", n, base: n - 1, ops: [{ delete: 23 }] });
    let rev = n;
    for (let undos = 0; undos < 450 && eve.code === null && performance.now() < end + 20_000; undos += 1) {
      const reply = await eve.ask({ do: "undo", doc: "d", n: rev + 1 });
      if (reply?.ok !== "taken") break;
      ({ rev } = reply);
    }
    const readers = await talksOf(scene, "eve", 10);
    const [waiting, ...silent] = readers;
    for (const talk of silent) talk.socket.pause();
    for (const { socket } of readers) for (const what of ["subscribe", "since"]) socket.send(`{"do":"${what}","doc":"d","rev":${Math.max(26, rev - 900)}}\n`);
    await until(() => waiting.replies.length === 3 || waiting.code !== null, "the replies of one that reads", 60_000);
    return { said: `${rev} revisions` };
  },

  "G1 long documents, in pieces, that are asked for and not taken": {
    begin: (scene) => scene.begin({ shape: LARGE_STORE, settings: () => ({ limits: { lineBytes: 1 << 17, newsBytes: 1 << 17 } }) }),
    async act(scene) {
      const eve = await scene.talk("eve");
      await eve.ask({ do: "create", doc: "long", n: 1, ops: [] });
      for (let n = 2; n < 7; n += 1) await eve.ask({ do: "edit", doc: "long", n, base: n - 1, ops: [{ insert: "x".repeat(60_000) }] });
      const silent = await talksOf(scene, "eve", 20);
      for (const { socket } of silent) socket.pause();
      for (const talk of silent) talk.send(...Array(20).fill({ do: "fetch", doc: "long" }));
      const bob = await scene.talk("bob");
      const began = performance.now();
      let count = 0;
      for (const end = began + 1_000 * seconds; performance.now() < end && bob.code === null; count += 1) {
        bob.send({ do: "fetch", doc: "long" });
        await until(() => bob.replies.length === count + 2 || bob.code !== null, "a long document");
        if (bob.replies.at(-1).ops?.[0].insert.length !== 300_000) break;
      }
      return { said: `another user has it ${count} times within ${Math.round(performance.now() - began)} ms`, isGood: count > 0 };
    },
  },

  async "G2 a user asks for all names"(scene) {
    const eves = await talksOf(scene, "eve", 130);
    for (const eve of eves) eve.send({ do: "lease", doc: "typed0" });
    await pause(1_000);
    for (const eve of eves) if (eve.code === null) eve.send({ do: "edit", doc: "typed0", n: 1, base: 1, ops: [] });
    await pause(1_000);
    for (let more = 0; more < 3; more += 1) for (const eve of await talksOf(scene, "eve", 60)) eve.send({ do: "lease", doc: "typed0" }, { do: "edit", doc: "typed0", n: 1, base: 1, ops: [] });
    await pause(1_000);
    const began = performance.now();
    const bob = await scene.talk("bob");
    const reply = await bob.ask({ do: "lease", doc: "typed0" });
    const edit = reply?.ok === "lease" ? await bob.ask({ do: "edit", doc: "typed0", n: 1, base: 1, ops: [{ insert: "@bob " }] }) : reply;
    return { said: `another user's first edit ${edit?.ok ?? JSON.stringify(edit)} after ${Math.round(performance.now() - began)} ms`, isGood: edit?.ok === "taken" };
  },

  "G3 the disk of the leases is full": {
    async begin(scene) {
      const data = path.join(folderFor(scene), "small");
      mkdirSync(data);
      await scene.begin({ data, command: ["unshare", "-rm", "sh", "-c", `mount -t tmpfs -o size=256k none ${data} && exec "$@"`, "sh"] });
    },
    async act(scene) {
      const within = `/proc/${scene.gateway.pid}/root${scene.data}`;
      const { bavail, bsize } = statfsSync(within);
      const filler = openSync(path.join(within, "filler"), "w");
      for (let left = bavail * bsize; left > 0; left -= 4_096) {
        try {
          writeSync(filler, Buffer.alloc(Math.min(left, 4_096), 1));
        } catch {
          break;
        }
      }
      closeSync(filler);
      const told = [];
      let refused = 0;
      const eve = await scene.talk("eve");
      for (let k = 0; k < 150 && refused < 3; k += 1) {
        const reply = await eve.ask({ do: "create", doc: `full${k}`, n: 1, ops: [] });
        if (reply?.ok === "taken") told.push(`full${k}`);
        else refused += 1;
      }
      rmSync(path.join(within, "filler"));
      const bob = await scene.talk("bob", "bob");
      const { lease } = (await bob.ask({ do: "lease", doc: "typed1" })) ?? {};
      const edit = await bob.ask({ do: "edit", doc: "typed1", n: 1, base: 1, ops: [{ insert: "@bob " }] });
      const kept = readFileSync(path.join(within, "leases-s1"), "utf8").split("\n").filter((line) => line !== "");
      const isRight = (line) => { try { return Array.isArray(JSON.parse(line)); } catch { return false; } };
      const names = new Set(kept.filter(isRight).map((line) => JSON.parse(line)).map(([doc, holder, name]) => `${doc} ${holder} ${name}`));
      const isKept = names.has(`typed1 bob/bob ${lease}`) && told.every((doc) => [...names].some((it) => it.startsWith(`${doc} eve/`)));
      const damaged = kept.length - kept.filter(isRight).length;
      return { said: `${told.length} creations taken, ${refused} refused, then an edit ${edit?.ok}; ${damaged} damaged lines`, isGood: isKept && damaged === 0 && edit?.ok === "taken" && refused > 0 };
    },
  },

  "G4 creations that are refused, with etcd": {
    needs: needsEtcd,
    async begin(scene) {
      const etcd = new EtcdProgram(scene);
      await etcd.start();
      scene.keys = async () => {
        const encoded = (text) => Buffer.from(text).toString("base64");
        const body = { key: encoded("richd/"), range_end: encoded("richd0"), count_only: true };
        return Number((await (await fetch(`${etcd.urls[0]}/v3/kv/range`, { method: "POST", body: JSON.stringify(body) })).json()).count ?? 0);
      };
      await scene.begin({ settings: () => ({ data: undefined, etcd: { urls: etcd.urls } }) });
    },
    async act(scene, end) {
      const before = await scene.keys();
      const eve = await scene.talk("eve");
      let count = 0;
      while (performance.now() < end && eve.code === null) {
        const docs = Array.from({ length: 16 }, (_, index) => `f${count + index}`.padEnd(64, "x"));
        await eve.ask(...docs.map((doc) => ({ do: "create", doc, n: 1, ops: [7] })));
        count += docs.length;
      }
      await pause(1_500);
      const left = (await scene.keys()) - before;
      return { said: `${count} creations, ${left} keys left`, isGood: left <= 0 };
    },
  },

  async "G5 pings"(scene, end) {
    const eves = await talksOf(scene, "eve", 4);
    await flood(eves, many(500, frame(0x89, Buffer.alloc(100))), end);
    return {};
  },
  async "G5 messages of one byte"(scene, end) {
    const eves = await talksOf(scene, "eve", 4);
    await flood(eves, many(5_000, frame(0x82, Buffer.from(" "))), end);
    return {};
  },
  async "G5 messages in pieces of one byte"(scene, end) {
    const eves = await talksOf(scene, "eve", 4);
    for (const { socket } of eves) socket._socket?.write(frame(0x02, Buffer.from(" ")));
    await flood(eves, many(5_000, frame(0x00, Buffer.from(" "))), end);
    return {};
  },
  async "G5 short lines, more than may be"(scene, end) {
    const eves = await talksOf(scene, "eve", 4);
    const line = Buffer.from('{"do":"unsubscribe","doc":"d"}\n');
    await flood(eves, many(2_000, frame(0x82, line)), end);
    return {};
  },
  async "G5 long lines that are refused"(scene, end) {
    const eves = await talksOf(scene, "eve", 8);
    const line = Buffer.from(`{"do":"edit","doc":"d","x":[${"1,".repeat(32_000)}1]}\n`);
    const head = Buffer.from([0x82, 0xff, 0, 0, 0, 0, 0, 0, line.length >> 8, line.length & 255, 0, 0, 0, 0]);
    await flood(eves, many(4, Buffer.concat([head, line])), end);
    return {};
  },
  async "G5 older revisions"(scene) {
    const rev = await wide(scene, "wide", 100);
    const end = performance.now() + 1_000 * seconds;
    const eves = await talksOf(scene, "eve", 20);
    let count = 0;
    await Promise.all(eves.map(async (eve) => {
      for (let k = 0; performance.now() < end && eve.code === null; k += 8) {
        await eve.ask(...Array.from({ length: 8 }, (_, index) => ({ do: "fetch", doc: "wide", rev: Math.max(1, rev - 2 - ((k + index) % 90)) })));
        count += 8;
      }
    }));
    return { said: `${count} reads` };
  },
  async "G5 carets in documents that are nowhere"(scene, end) {
    const eve = await scene.talk("eve");
    let count = 0;
    for (; performance.now() < end && eve.code === null; count += 50) {
      const asked = eve.ask(...Array.from({ length: 50 }, (_, index) => ({ do: "presence", doc: `p${count + index}`.padEnd(64, "x"), at: [0, 0], rev: 0 })));
      await Promise.race([asked.catch(() => {}), pause(Math.max(0, end - performance.now()))]);
    }
    return { said: `${eve.replies.length - 1} documents of ${count}` };
  },
  async "G5 connections that nobody signs in"(scene, end) {
    const asked = `GET / HTTP/1.1\r\nHost: 127.0.0.1\r\nX-User: slow\r\nConnection: Upgrade\r\nUpgrade: websocket\r\nSec-WebSocket-Version: 13\r\nSec-WebSocket-Key: dGhlIHNhbXBsZSBub25jZQ==\r\n\r\n`;
    const all = [];
    scene.after(() => all.forEach((socket) => socket.destroy()));
    for (; all.length < 2_000 && performance.now() < end; await pause(1)) {
      const isSilent = all.length % 2 === 0;
      all.push(net.connect(scene.port, "127.0.0.1").on("error", () => {}).on("connect", function () { if (!isSilent) this.write(asked); }));
    }
    scene.attackers.push(...all);
    await pause(Math.max(0, end - performance.now()));
    const open = all.filter((socket) => !socket.destroyed).length;
    return { said: `${all.length} connections, half of them silent, ${open} still open` };
  },

  async "G6 rights that are taken away"(scene) {
    const eve = await scene.talk("revoked");
    const { rev } = await eve.ask({ do: "fetch", doc: "typed2" });
    await eve.ask({ do: "subscribe", doc: "typed2", rev });
    await until(() => eve.news.length > 0, "news");
    writeFileSync(`${scene.rights}.revoked`, "");
    await pause(7_000); // five seconds, and what is on its way
    const before = eve.news.length;
    await pause(3_000);
    return { said: `${eve.news.length - before} news after seven seconds, then ended ${eve.news.at(-1).ended}`, isGood: eve.news.length === before && eve.news.at(-1).ended === 60 };
  },

  "G7 a store that sends garbage": {
    async begin(scene) {
      const KINDS = ["abc\n", "\n", "null\n", "{}\n", '{"deltas":[[,"doc":"bad","ok":"since","rev":7}\n', '{"doc":"bad","ok":"since","rev":7}\n', Buffer.from([255, 0, 10]), '{"doc":"bad","news":x}\n', "x".repeat(200_000)];
      let turn = 0;
      const server = net.createServer((socket) => {
        let part = "";
        socket.on("error", () => {});
        socket.on("data", (bytes) => {
          const lines = (part + bytes).split("\n");
          part = lines.pop();
          for (const line of lines) {
            const { do: what, doc, rev } = JSON.parse(line);
            if (what === "hello") socket.write(turn % 5 === 4 ? "{}\n\n" : '{"ok":"hello"}\n');
            else if (what === "unsubscribe") socket.write(`{"doc":"${doc}","ok":"unsubscribed"}\n`);
            else if (what === "fetch" && rev > 1_000) socket.write('{"code":12,"error":"Future"}\n');
            else socket.write(KINDS[(turn += 1) % KINDS.length]);
          }
        });
      });
      await new Promise((resolve) => server.listen(0, "127.0.0.1", resolve));
      scene.after(() => server.close());
      const stores = [{ name: "s2", host: "127.0.0.1", port: server.address().port }];
      await scene.begin({ settings: (own) => ({ stores: [...own, ...stores], rule: [{ prefix: "", store: "s1" }, { prefix: "bad", store: "s2" }] }) });
    },
    async act(scene, end) {
      const eve = await scene.talk("eve");
      let count = 0;
      while (performance.now() < end && eve.code === null) {
        eve.send({ do: "subscribe", doc: "bad", rev: 6 }, { do: "since", doc: "bad", rev: 6 }, { do: "fetch", doc: "bad" });
        count += 3;
        await pause(100);
      }
      const garbage = scene.gateway.exitCode === null ? found(/garbage_total\{from="store"\} (\d+)/, (await scene.get("/metrics")).text) : NaN;
      return { said: `${count} messages, ${garbage} lines of garbage`, isGood: garbage > 0 };
    },
  },

  async "G8 pages from elsewhere, and hooks that give nothing"(scene) {
    const statuses = [];
    for (const page of ["/docs", "/metrics", "/healthz"]) statuses.push((await scene.get(page, { host: "evil.example", origin: "http://evil.example" })).status);
    const eve = await scene.talk("eve");
    const { code } = await eve.ask({ do: "create", doc: "locked", n: 1, ops: [] });
    return { said: `${statuses.join(", ")}; a command that onCommand says nothing of ${code ?? "taken"}`, isGood: statuses.every((status) => status === 403) && code === 60 };
  },
};

const shown = ({ edits, p50, p99, share }) => `${edits} edits, p50 ${p50}, p99 ${p99} ms, ${share}% of a processor`;
const times = (one, other) => (one.p99 / Math.max(1, other.p99)).toFixed(1);
const size = (bytes) => (bytes < 1e6 ? `${Math.ceil(bytes / 1e3)} KB` : `${(bytes / 1e6).toFixed(1)} MB`);
const isThere = (pid) => existsSync(`/proc/${pid}`);
const sum = (codes) => Object.values(codes).reduce((all, count) => all + count, 0);

/** Each acknowledged edit stands in its document once. */
function lost(store, acknowledged) {
  const texts = new Map([...store.dump()].map(([doc, { ops }]) => [doc, ops === null ? "" : ops.map(({ insert }) => (typeof insert === "string" ? insert : "")).join("")]));
  const counts = new Map();
  for (const [doc, text] of texts) for (const [found_] of text.matchAll(/@\d+\.\d+ /g)) counts.set(`${doc} ${found_}`, (counts.get(`${doc} ${found_}`) ?? 0) + 1);
  const times = acknowledged.map(([doc, text]) => counts.get(`${doc} ${text}`) ?? 0);
  return { lost: times.filter((count) => count === 0).length, twice: times.filter((count) => count > 1).length };
}

let failed = 0;
for (const [name, attack] of Object.entries(ATTACKS)) {
  if (wanted.length > 0 && !wanted.some((it) => name.startsWith(it))) continue;
  const { begin = (scene) => scene.begin(), act = attack, needs } = attack;
  if (needs?.skip) {
    console.log(`skipped  ${name}: ${needs.skip}`);
    continue;
  }
  const scene = new Scene();
  try {
    await begin(scene);
    await pause(1_000 * Math.min(3, seconds));
    await scene.typed();
    await pause(1_000 * seconds);
    const alone = await scene.typed();
    const store = scene.store.pid;
    const began = performance.now();
    const { said = "", isGood = true } = await act(scene, began + 1_000 * seconds).catch((error) => ({ said: error.message, isGood: false }));
    await pause(Math.max(0, began + 1_000 * seconds - performance.now()));
    const beside = await scene.typed();
    const took = (performance.now() - began) / 1_000;
    const { memory, sent } = scene;
    const isSame = () => scene.gateway.exitCode === null && scene.gateway.signalCode === null && isThere(store);
    await scene.endAttack();
    let [peer, bytes] = [undefined, 0];
    if (isSame()) {
      await scene.typed();
      bytes = await scene.harmless(sent);
      peer = await scene.typed();
    }
    const { cut, refused, acknowledged } = await scene.typed("end");
    const stays = isSame();
    await scene.store.kill();
    const { lost: gone, twice } = lost(scene.store, acknowledged);
    const isOk = isGood && stays && gone + twice === 0 && sum(cut) === 0;
    if (!isOk) failed += 1;
    const harmless = peer === undefined ? "no harmless one after it" : `beside a harmless one of ${size(bytes)} ${shown(peer)}`;
    const ratios = peer === undefined ? `p99 ${times(beside, alone)} of alone` : `p99 ${times(beside, alone)} of alone, ${times(beside, peer)} of the harmless one`;
    console.log(`${isOk ? "ok      " : "FAILED  "} ${name}: alone ${shown(alone)}; beside it, ${size(sent)} sent, ${shown(beside)}; ${harmless}; ${ratios}; `
      + `${sum(cut)} of ${browsers} cut, ${sum(refused)} refused, ${gone} lost, ${twice} twice; the processes ${stays ? "are the same" : "ended"}, ${memory} MiB at most, `
      + `${took.toFixed(0)} s${said ? `; ${said}` : ""}`);
  } catch (error) {
    failed += 1;
    console.log(`FAILED   ${name}: ${error.stack}`);
  }
  await scene.end();
}
console.log(failed === 0 ? `ok: ${browsers} browsers type beside each attack` : `FAILED: ${failed} attacks`);
process.exit(failed === 0 ? 0 : 1);
