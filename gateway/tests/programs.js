// The programs that are tested: richd over a store of its own, the gateway, etcd.

import { execFileSync, spawn } from "node:child_process";
import { once } from "node:events";
import { accessSync, constants, mkdtempSync, rmSync, writeFileSync } from "node:fs";
import os from "node:os";
import path from "node:path";
import { createInterface } from "node:readline";
import { fileURLToPath } from "node:url";

export const ROOT = path.resolve(path.dirname(fileURLToPath(import.meta.url)), "../..");
export const RICHD = process.env.RICHD ?? path.join(ROOT, "crates/richd/out/richd");

const isThere = (file) => {
  try {
    accessSync(file, constants.X_OK);
    return true;
  } catch {
    return false;
  }
};

const ETCD = "/usr/bin/etcd";
/** What a test that runs a program is given as its options. */
export const needsRichd = { skip: isThere(RICHD) ? false : `${RICHD} isn't there: ./demo builds it, or name another program in RICHD` };
export const needsEtcd = { skip: isThere(ETCD) ? false : "there is no etcd, Debian's etcd-server" };

export const pause = (milliseconds) => new Promise((resolve) => setTimeout(resolve, milliseconds));

/** Waits until something holds. */
export async function until(holds, what = holds.toString(), milliseconds = 30_000) {
  for (const end = performance.now() + milliseconds; performance.now() < end; await pause(10)) if (await holds()) return;
  throw new Error(`not within ${milliseconds} ms: ${what}`);
}

/** A folder of its own, until the test ends. */
export function folderFor(test) {
  const folder = mkdtempSync(path.join(process.env.TMPDIR ?? os.tmpdir(), "gateway-"));
  test.after(() => rmSync(folder, { recursive: true, force: true }));
  return folder;
}

/** @type {Set<import("node:child_process").ChildProcess>} what runs: it ends with this process, whatever ends that */
const running = new Set();
process.on("exit", () => running.forEach((program) => program.kill("SIGKILL")));

function started(program) {
  running.add(program);
  program.on("exit", () => running.delete(program));
  return program;
}

/** Kills a program, where it runs, and waits for its end. */
export async function ended(program) {
  if (program === undefined || program.exitCode !== null || program.signalCode !== null) return;
  program.kill("SIGKILL");
  await once(program, "exit");
}

/** A program that is started again and again, and killed. */
class Program {
  #command;
  #process;
  #errors;

  constructor(test, command, errors = "inherit") {
    this.#command = command;
    this.#errors = errors;
    test.after(() => this.kill());
  }

  /** Starts it, and gives the first line that it prints. */
  async start() {
    const [command, ...words] = this.#command();
    this.#process = started(spawn(command, words, { stdio: ["ignore", "pipe", this.#errors] }));
    if (this.#errors === "pipe") createInterface({ input: this.#process.stderr }).on("line", (line) => this.said.push(line));
    const [line] = await once(createInterface({ input: this.#process.stdout }), "line");
    return line;
  }

  said = [];

  get pid() {
    return this.#process.pid;
  }

  /** Ends it, and gives its status. */
  async kill(signal = "SIGKILL") {
    const process = this.#process;
    this.#process = undefined;
    if (process === undefined || process.exitCode !== null || process.signalCode !== null) return process?.exitCode;
    process.kill(signal);
    const [status] = await once(process, "exit");
    return status;
  }
}

/** richd over a store. */
export class Richd {
  #program;
  port = 0;

  constructor(test, ...shape) {
    this.path = path.join(folderFor(test), "store");
    execFileSync(RICHD, ["format", this.path, ...shape]);
    this.#program = new Program(test, () => [RICHD, "serve", this.path, "--listen", `127.0.0.1:${this.port}`]);
  }

  async serve() {
    this.port = Number((await this.#program.start()).split(":").at(-1));
    return { host: "127.0.0.1", port: this.port };
  }

  kill() {
    return this.#program.kill();
  }

  signal(name) {
    process.kill(this.#program.pid, name);
  }

  get pid() {
    return this.#program.pid;
  }

  /** The documents that the program prints: name -> revision and operations. */
  dump() {
    const lines = execFileSync(RICHD, ["dump", this.path], { encoding: "utf8", maxBuffer: 1 << 30 }).split("\n").filter(Boolean);
    return new Map(lines.map((line) => {
      const [, doc, rev, document] = /^(\S+) (\d+) \d+ (.*)$/.exec(line);
      return [doc, { rev: Number(rev), ops: document === "deleted" ? null : JSON.parse(document).ops }];
    }));
  }
}

/** The gateway as a program. */
export class GatewayProgram {
  #program;
  port = 0;

  /** `settings` gives them as it starts; `listen` stands in them where it isn't given. */
  constructor(test, settings, errors) {
    this.file = path.join(folderFor(test), "settings.json");
    this.#program = new Program(test, () => {
      writeFileSync(this.file, JSON.stringify({ listen: `127.0.0.1:${this.port}`, ...settings() }));
      return [process.execPath, path.join(ROOT, "gateway/program.js"), "--settings", this.file];
    }, errors);
  }

  async start() {
    this.port = Number(/:(\d+)\/$/.exec(await this.#program.start())[1]);
  }

  get url() {
    return `ws://127.0.0.1:${this.port}/`;
  }

  get pid() {
    return this.#program.pid;
  }

  get said() {
    return this.#program.said.map((line) => JSON.parse(line));
  }

  kill(signal) {
    return this.#program.kill(signal);
  }

  signal(name) {
    process.kill(this.#program.pid, name);
  }

  async get(name) {
    return fetch(`http://127.0.0.1:${this.port}/${name}`);
  }

  /** The metrics: name with its labels -> number. */
  async metrics() {
    const text = await (await this.get("metrics")).text();
    return new Map(text.split("\n").filter((line) => line !== "" && !line.startsWith("#")).map((line) => {
      const at = line.lastIndexOf(" ");
      return [line.slice(0, at).replace("richd_gateway_", ""), Number(line.slice(at + 1))];
    }));
  }
}

/** etcd with a folder of its own. */
export class EtcdProgram {
  #process;
  #folder;

  constructor(test) {
    this.#folder = folderFor(test);
    test.after(() => this.kill());
  }

  async start(port = 20_000 + Math.floor(Math.random() * 10_000)) {
    this.port = port;
    const [client, peer] = [`http://127.0.0.1:${port}`, `http://127.0.0.1:${port + 1}`];
    const words = ["--data-dir", this.#folder, "--name", "one", "--listen-client-urls", client, "--advertise-client-urls", client,
      "--listen-peer-urls", peer, "--initial-advertise-peer-urls", peer, "--initial-cluster", `one=${peer}`, "--logger", "zap", "--log-level", "error"];
    this.#process = started(spawn(ETCD, words, { stdio: "ignore" }));
    this.urls = [client];
    await until(() => fetch(`${client}/health`).then((response) => response.ok, () => false), "etcd is there");
  }

  async kill() {
    const process = this.#process;
    this.#process = undefined;
    await ended(process);
  }
}
