// The programs of the cluster besides those that the other tests run: HAProxy, the processes of browsers; and what all use.

import { fork, spawn } from "node:child_process";
import { readFileSync, readdirSync, writeFileSync } from "node:fs";
import net from "node:net";
import path from "node:path";
import { ended, folderFor, until } from "../programs.js";

const TICKS = 100; // a second
const HAPROXY = "/usr/sbin/haproxy";

export async function freePort() {
  const server = net.createServer();
  await new Promise((resolve) => server.listen(0, "127.0.0.1", resolve));
  const { port } = /** @type {net.AddressInfo} */ (server.address());
  await new Promise((resolve) => server.close(resolve));
  return port;
}

const isServed = (port) => new Promise((resolve) => {
  const socket = net.connect(port, "127.0.0.1");
  socket.on("connect", () => resolve(true)).on("error", () => resolve(false)).on("connect", () => socket.destroy());
});

/**
 * HAProxy before the gateways. A path is a document's name, so those of one document come to one gateway. It says who the user is, as a proxy
 * that signs in would: here it believes the address.
 */
export class Proxy {
  #file;
  #process;
  port = 0;

  constructor(test) {
    this.#file = path.join(folderFor(test), "haproxy.cfg");
    test.after(() => this.kill());
  }

  /** @param {{ name: string, port: number }[]} gateways */
  async start(gateways) {
    this.port = await freePort();
    const servers = gateways.map(({ name, port }) => `  server ${name} 127.0.0.1:${port} check inter 500ms fall 2 rise 1`);
    writeFileSync(this.#file, `defaults
  mode http
  timeout connect 2s
  timeout client 60s
  timeout server 60s
  timeout tunnel 1h
  retries 2
  option redispatch
frontend browsers
  bind 127.0.0.1:${this.port}
  http-request set-header x-remote-user %[url_param(user)]
  default_backend gateways
backend gateways
  balance uri
  hash-type consistent
  option httpchk GET /healthz
${servers.join("\n")}
`);
    this.#process = spawn(HAPROXY, ["-db", "-q", "-f", this.#file], { stdio: ["ignore", "ignore", "inherit"] });
    await until(() => isServed(this.port), "HAProxy is there");
  }

  async kill() {
    const process = this.#process;
    this.#process = undefined;
    await ended(process);
  }
}

/** A process of browsers, that does what it is told. */
export class Browsers {
  #process;
  #asked = new Map();
  #count = 0;
  #end;

  constructor(test) {
    this.#process = fork(new URL("browsers.js", import.meta.url));
    this.#process.on("message", ({ id, value, error }) => {
      const { resolve, reject } = this.#asked.get(id);
      this.#asked.delete(id);
      if (error === undefined) resolve(value);
      else reject(new Error(error));
    });
    this.#process.on("exit", (status, signal) => {
      this.#end = new Error(`a process of browsers ended by ${signal ?? status}`);
      for (const { reject } of this.#asked.values()) reject(this.#end);
    });
    test.after(() => this.#process.kill("SIGKILL"));
  }

  do(act, about) {
    if (this.#end !== undefined) return Promise.reject(this.#end);
    const id = (this.#count += 1);
    return new Promise((resolve, reject) => {
      this.#asked.set(id, { resolve, reject });
      this.#process.send({ id, act, about }, (error) => error && reject(error));
    });
  }
}

const KINDS = [[/^\S*richd\S* serve /, "stores"], [/program\.js /, "gateways"], [/browsers\.js/, "browsers"], [/^\S*etcd /, "etcd"], [/^\S*haproxy /, "proxy"]];

/** What this program's own programs have used: by kind, for each its processor's seconds and its bytes of memory. */
export function usage() {
  const found = {};
  for (const pid of readdirSync("/proc").filter((name) => /^\d+$/.test(name))) {
    try {
      const fields = readFileSync(`/proc/${pid}/stat`, "utf8").split(") ")[1].split(" ");
      if (Number(fields[1]) !== process.pid) continue;
      const command = readFileSync(`/proc/${pid}/cmdline`, "utf8").replaceAll("\0", " ");
      const [, kind] = KINDS.find(([words]) => words.test(command)) ?? [];
      if (kind === undefined) continue;
      const [, kilobytes = 0] = /VmRSS:\s+(\d+)/.exec(readFileSync(`/proc/${pid}/status`, "utf8")) ?? [];
      (found[kind] ??= new Map()).set(pid, { seconds: (Number(fields[11]) + Number(fields[12])) / TICKS, bytes: Number(kilobytes) * 1024 });
    } catch {
      // it has ended
    }
  }
  return found;
}

/** How much of a processor each kind of program took between two times, and the most memory that one of its programs has now. */
export function compared(before, after, seconds) {
  return Object.fromEntries(Object.entries(after).map(([kind, programs]) => {
    const used = [...programs].map(([pid, { seconds: now }]) => now - (before[kind]?.get(pid)?.seconds ?? 0));
    return [kind, { processors: used.reduce((sum, it) => sum + it, 0) / seconds, bytes: Math.max(...[...programs.values()].map(({ bytes }) => bytes)) }];
  }));
}
