// Bare sessions for tests: a gateway in this process, browsers as WebSockets, and a store that answers as it is told.

import { once } from "node:events";
import http from "node:http";
import net from "node:net";
import { createGateway } from "../gateway.js";
import { webSockets } from "../websockets.js";
import { folderFor, pause, until } from "./programs.js";

const { WebSocket } = webSockets();

/** A gateway behind an HTTP server of its own, until the test ends. */
export async function gatewayFor(test, settings) {
  const events = [];
  const gateway = await createGateway({ data: settings.etcd ? undefined : folderFor(test), log: (event) => events.push(event), ...settings });
  const server = http.createServer((request, response) => gateway.handleRequest(request, response) || response.writeHead(404).end());
  server.on("connection", (socket) => gateway.handleConnection(socket));
  server.on("upgrade", (request, socket, head) => gateway.handleUpgrade(request, socket, head));
  await new Promise((resolve) => server.listen(0, "127.0.0.1", resolve));
  const { port } = server.address();
  let hasEnded = false;
  const close = async () => {
    if (hasEnded) return;
    hasEnded = true;
    server.close();
    await gateway.close();
  };
  test.after(close);
  return { gateway, events, port, close, url: `ws://127.0.0.1:${port}/` };
}

/** A browser: a WebSocket, and the lines that came. */
export class Talk {
  lines = [];
  code = null; // by which it was closed
  #parts = []; // of a line that isn't whole

  constructor(url, options) {
    this.socket = new WebSocket(url, options);
    this.socket.on("message", (bytes) => this.#take(bytes));
    this.socket.on("close", (code) => (this.code = code));
    this.socket.on("error", (error) => (this.error = error));
  }

  /** Opens a session, and says hello. */
  static async begin(test, url, token, options) {
    const talk = new Talk(url, options);
    test.after(() => talk.socket.terminate());
    await once(talk.socket, "open");
    await talk.ask({ do: "hello", source: token });
    return talk;
  }

  send(...messages) {
    this.socket.send(messages.map((message) => (typeof message === "string" ? message : JSON.stringify(message)) + "\n").join(""));
  }

  #take(bytes) {
    this.#parts.push(bytes);
    if (!bytes.includes(10)) return;
    const lines = Buffer.concat(this.#parts).toString().split("\n");
    this.#parts = [Buffer.from(lines.pop())];
    this.lines.push(...lines.map((line) => JSON.parse(line)));
  }

  /** Bytes of a line that isn't whole. */
  get begun() {
    return this.#parts.reduce((sum, { length }) => sum + length, 0);
  }

  get replies() {
    return this.lines.filter(({ news, ended, presence }) => news === undefined && ended === undefined && presence === undefined);
  }

  get news() {
    return this.lines.filter(({ news, ended }) => news !== undefined || ended !== undefined);
  }

  get carets() {
    return this.lines.filter(({ presence }) => presence !== undefined);
  }

  /** Sends messages, and gives the reply to the last. */
  async ask(...messages) {
    const due = this.replies.length + messages.length;
    this.send(...messages);
    await until(() => this.replies.length >= due || this.code !== null, `a reply to ${JSON.stringify(messages.at(-1)).slice(0, 100)}`);
    return this.replies[due - 1];
  }

  async closed() {
    await until(() => this.code !== null, "the end of a WebSocket");
    return this.code;
  }
}

/** A store that holds what comes, and answers as the test says. `hello` is answered, and so is what asks for nothing. */
export class FakeStore {
  /** @type {{ source: string, message: any, reply: (line: any) => void, write: (text: string) => void, unsent: () => number,
   *   cut: () => void }[]} */
  asked = [];
  sessions = new Set();
  newest = 1_000; // a fetch or since of a later revision is refused at once

  made = new Set(); // documents that were created here
  isNowhere = () => false;

  static async begin(test) {
    const store = new FakeStore();
    store.server = net.createServer((socket) => store.#serve(socket));
    await new Promise((resolve) => store.server.listen(0, "127.0.0.1", resolve));
    test.after(() => store.close());
    return store;
  }

  get address() {
    return { host: "127.0.0.1", port: this.server.address().port };
  }

  close() {
    this.server.close();
    for (const socket of this.sessions) socket.destroy();
  }

  /** Waits for a message that fulfils something, and takes it out. */
  async next(fits = () => true) {
    await until(() => this.asked.some(({ message }) => fits(message)), `a message of the gateway for ${fits}`);
    const at = this.asked.findIndex(({ message }) => fits(message));
    return this.asked.splice(at, 1)[0];
  }

  #serve(socket) {
    this.sessions.add(socket);
    socket.on("error", () => {});
    socket.on("close", () => this.sessions.delete(socket));
    let [part, source] = ["", ""];
    socket.on("data", (bytes) => {
      const lines = (part + bytes).split("\n");
      part = lines.pop();
      for (const line of lines) {
        const message = JSON.parse(line);
        const reply = (it) => {
          if (message.do === "create" && it.ok === "taken") this.made.add(message.doc);
          socket.write(JSON.stringify(it) + "\n");
        };
        if (message.do === "hello") {
          source = message.source;
          reply({ ok: "hello" });
        } else if (message.do === "unsubscribe") {
          reply({ doc: message.doc, ok: "unsubscribed" });
        } else if (["fetch", "since"].includes(message.do) && message.rev > this.newest) {
          reply(message.do === "since" && this.isNowhere(message.doc) ? { code: 6, error: "NoDocument" } : { code: 12, error: "Future" });
        } else {
          this.asked.push({ source, message, reply, write: (text) => socket.write(text), unsent: () => socket.writableLength, cut: () => socket.destroy() });
        }
      }
    });
  }
}

export const taken = ({ doc, n }, rev, ok = "taken") => ({ doc, n, ok, rev });
export { pause, until };
