// A gateway: many browsers on a few sessions of some stores.

import { randomBytes } from "node:crypto";
import { mkdirSync, readdirSync } from "node:fs";
import path from "node:path";
import { Browser } from "./browser.js";
import { CODE } from "./codes.js";
import { Etcd } from "./etcd.js";
import { Journal, readLines } from "./journal.js";
import { EtcdLeases } from "./leases-etcd.js";
import { Leases, hasDamage } from "./leases.js";
import { lock } from "./lock.js";
import { KIND, RIGHT } from "./messages.js";
import { Metrics } from "./metrics.js";
import { isAllowedOrigin, isKnownHost } from "./origins.js";
import { EtcdPlaces, RuledPlaces } from "./places.js";
import { Presence } from "./presence.js";
import { checkOrigins, checkStore, checked } from "./settings.js";
import { Store } from "./store.js";
import { Sweep } from "./sweep.js";
import { Address, User, idOf, nameOf } from "./users.js";
import { Versions, versionIn } from "./versions.js";
import { Waiting } from "./waiting.js";
import { webSockets } from "./websockets.js";

const MOST_FRAME = 1 << 17; // bytes of a WebSocket's message
const SECOND = 1_000;
const FORGOTTEN = 3_600_000; // milliseconds that what a user has taken is known after his last session
const SIGN_IN = 10_000; // milliseconds that authorize may take
const FAREWELL = 4_000; // milliseconds that commands which were sent have for their replies, at the end
const MOST_SAID = 20; // lines of one event within a second
const RETRY = 1_000; // milliseconds until etcd is asked again for the pool
const MOST_LISTED = 1_000; // documents of a page
const MOST_LOOKED = 10_000; // places that are looked at for a page

const PAGES = ["/healthz", "/metrics", "/docs"];
const PROXIED = ["x-forwarded-for", "x-real-ip", "forwarded", "via"]; // headers of requests that a proxy has passed on

export { CODE };

/** Goes on with a value, at once where it is there. */
const chain = (value, next) => (typeof value?.then === "function" ? value.then(next) : next(value));

/** What a promise gives within the time that somebody has to sign in, and undefined later. @param {Promise<any>} promise */
function inTime(promise) {
  let timer;
  const late = new Promise((resolve) => (timer = setTimeout(resolve, SIGN_IN)));
  return Promise.race([promise, late]).finally(() => clearTimeout(timer));
}

/** @param {import("node:stream").Duplex} socket @param {number} status @param {string} reason */
function refuse(socket, status, reason) {
  socket.end(`HTTP/1.1 ${status} ${reason}\r\nConnection: close\r\nContent-Length: 0\r\n\r\n`);
}

export class Gateway {
  #settings;
  #log;
  #authorize;
  #can;
  #onCommand;
  #onTaken;
  #sockets;
  #kept; // of the news of all stores
  #etcd;
  #pool;
  #unlock = () => {};
  /** @type {Set<Browser>} */
  #browsers = new Set();
  /** @type {Map<string, User>} */
  #users = new Map();
  /** @type {Map<string, Address>} */
  #addresses = new Map();
  /** @type {WeakMap<object, { address: Address, isSigned: boolean }>} */
  #connections = new WeakMap();
  #hasSaidProxied = false;
  /** @type {Map<string, Browser>} */
  #holders = new Map();
  #count = 0;
  /** @type {Map<string, number>} event -> how often in this second */
  #said = new Map();
  #isEnding = false;
  #sweep;
  /** @type {Versions | undefined} */
  #versions;
  #timers = [];

  metrics = new Metrics();
  presence = new Presence();
  /** @type {Map<string, Store>} */
  stores = new Map();
  places;

  /** @param {any} settings  that were checked */
  constructor(settings) {
    const { log = () => {}, authorize = () => "anybody", can, onCommand, onTaken } = settings;
    this.#settings = settings;
    this.#log = log;
    this.#authorize = authorize;
    this.#can = can;
    this.#onCommand = onCommand;
    this.#onTaken = onTaken;
    this.waiting = new Waiting({ most: settings.limits.waitingBytes, all: () => this.#browsers });
    this.#kept = { bytes: 0, most: settings.limits.keptBytes };
    const { WebSocketServer } = webSockets();
    this.#sockets = new WebSocketServer({ noServer: true, maxPayload: MOST_FRAME, clientTracking: false });
  }

  async begin() {
    const { etcd, data, rule, stores, pulse, archive, limits } = this.#settings;
    if (etcd === undefined) {
      mkdirSync(data, { recursive: true, mode: 0o700 });
      this.#unlock = await lock(data);
      this.places = new RuledPlaces({ rule, folder: data, onFailure: this.#onUnwritten });
      this.#pool = this.#namesOf(await this.#keptPool(data));
    } else {
      this.#etcd = new Etcd({ ...etcd, log: this.log, onGarbage: () => this.metrics.count("garbage_total", { from: "etcd" }) });
      this.places = new EtcdPlaces({ etcd: this.#etcd, stores: () => [...this.stores.values()] });
    }
    this.places.moves = etcd !== undefined;
    const { places } = this;
    if (archive !== undefined) this.#versions = new Versions({ archive, places, data, etcd: this.#etcd, most: limits.lineBytes, onFailure: this.#onUnwritten });
    for (const store of stores) this.#add(store);
    if (etcd !== undefined) {
      this.#findPool();
      this.#sweepUp();
    }
    this.#timers.push(setInterval(() => this.#look(), pulse), setInterval(() => this.#eachSecond(), SECOND));
    for (const timer of this.#timers) timer.unref();
  }

  // The pool of names is of this folder. Where lines of it are damaged names may be lent of which nothing is known, so all are new from then on.
  async #keptPool(data) {
    const file = path.join(data, "pool");
    const damaged = readdirSync(data).filter((name) => name.startsWith("leases-") && !name.endsWith(".new") && hasDamage(path.join(data, name)));
    for (const name of damaged) this.log("a file of leases is damaged, so all names are new", { file: path.join(data, name) });
    const [kept] = readLines(file, (value) => typeof value === "string").values;
    const pool = kept === undefined || damaged.length > 0 ? randomBytes(4).toString("hex") : kept;
    await new Journal(file, [pool]).close();
    return pool;
  }

  #onUnwritten = (error) => {
    this.metrics.count("unwritten_total");
    this.log("a file can't be written", { error: error.message });
  };

  // Of one event so many lines a second are said; what befalls thousands of browsers at the same time isn't said of each.
  log = (event, about = {}) => {
    const said = this.#said.get(event) ?? 0;
    this.#said.set(event, said + 1);
    if (said >= MOST_SAID) return;
    try {
      this.#log({ time: new Date().toISOString(), event, ...about });
    } catch {
      // whoever is to be told has failed
    }
  };

  /** Something threw that shouldn't: one session ends by it. */
  fault(error, about = {}) {
    this.metrics.count("faults_total");
    this.log("a fault of the gateway", { ...about, error: error?.stack ?? String(error) });
  }

  /** Takes over a WebSocket that an HTTP server was asked for. */
  async handleUpgrade(request, socket, head) {
    socket.on("error", () => {});
    try {
      await this.#upgrade(request, socket, head);
    } catch (error) {
      this.fault(error);
      socket.destroy();
    }
  }

  async #upgrade(request, socket, head) {
    if (this.#isEnding) return refuse(socket, 503, "Service Unavailable");
    if (!isAllowedOrigin(request, this.#settings.origins)) {
      this.log("origin refused", { origin: request.headers.origin, host: request.headers.host });
      return refuse(socket, 403, "Forbidden");
    }
    const address = this.#connected(this.#addressOf(request), socket);
    if (address === undefined) return refuse(socket, 503, "Service Unavailable");
    const given = await inTime(this.#signedIn(request));
    if (given === undefined) return refuse(socket, 503, "Service Unavailable");
    if (given === null) return refuse(socket, 401, "Unauthorized");
    if (this.#isEnding) return refuse(socket, 503, "Service Unavailable");
    this.#signed(socket);
    this.#sockets.handleUpgrade(request, socket, head, (webSocket) => this.#open(webSocket, given, address));
  }

  /** Counts a connection that an HTTP server was asked for, and ends it where its address has as many as it may. */
  handleConnection(socket) {
    if (this.#settings.address !== undefined) return; // then the proxy's connections aren't browsers'
    if (this.#connected(socket.remoteAddress ?? "", socket) === undefined) socket.destroy();
  }

  // The address of a connection, which is counted there until it is closed; undefined where it has too many.
  #connected(from, socket) {
    const before = this.#connections.get(socket);
    if (before !== undefined) return before.address;
    const { limits } = this.#settings;
    const address = this.#addresses.get(from) ?? new Address(limits);
    const counts = { addressSessions: address.connections, addressUnsigned: address.unsigned };
    const over = Object.keys(counts).find((limit) => counts[limit] >= limits[limit]);
    if (over !== undefined) {
      this.metrics.count("over_total", { limit: over });
      this.log("an address has too many connections", { address: from, limit: over });
      return undefined;
    }
    this.#addresses.set(from, address);
    address.connections += 1;
    address.unsigned += 1;
    this.#connections.set(socket, { address, isSigned: false });
    socket.once("close", () => {
      this.#signed(socket);
      address.connections -= 1;
    });
    return address;
  }

  #signed(socket) {
    const connection = this.#connections.get(socket);
    if (!connection.isSigned) connection.address.unsigned -= 1;
    connection.isSigned = true;
  }

  // Where a request comes from, as the nearest proxy says.
  #addressOf({ headers, socket }) {
    const { address } = this.#settings;
    if (address === undefined && PROXIED.some((header) => header in headers)) this.#sayProxied();
    const said = address && headers[address.header.toLowerCase()];
    return said ? said.split(",").at(-1).trim() : (socket?.remoteAddress ?? "");
  }

  #sayProxied() {
    if (this.#hasSaidProxied) return;
    this.#hasSaidProxied = true;
    this.log("requests come by a proxy, and no setting address says where from: all have the proxy's address, and share what one may take");
  }

  /**
   * Answers /healthz, /metrics, /docs and the pages of versions. Gives whether it was one of them.
   * @param {import("node:http").IncomingMessage} request
   * @param {import("node:http").ServerResponse} response
   */
  handleRequest(request, response) {
    return this.#handle(request, response, PAGES.filter((page) => page !== "/metrics" || !this.#settings.hidesMetrics));
  }

  /** Answers /healthz and /metrics, for an address of their own. Gives whether it was one of them. */
  handleWatch(request, response) {
    return this.#handle(request, response, ["/healthz", "/metrics"]);
  }

  #handle(request, response, pages) {
    try {
      const [name, query = ""] = request.url.split("?", 2);
      const version = this.#versions && versionIn(name);
      if (!pages.includes(version ? "/docs" : name)) return false;
      if (isKnownHost(request, this.#settings) && isAllowedOrigin(request, this.#settings.origins)) {
        this.#answer(name, query, request, response);
      } else {
        const { host, origin } = request.headers;
        this.metrics.count("pages_refused_total");
        this.log("a page is refused", { page: name, host, origin });
        response.writeHead(403).end();
      }
      return true;
    } catch (error) {
      this.fault(error);
      if (!response.headersSent) response.writeHead(500);
      response.end();
      return true;
    }
  }

  #answer(name, query, request, response) {
    const json = (status, value) => {
      response.writeHead(status, { "content-type": "application/json", "cache-control": "no-store" });
      response.end(JSON.stringify(value) + "\n");
    };
    if (name === "/healthz") {
      const health = this.health();
      json(health.ok ? 200 : 503, health);
    } else if (name === "/metrics") {
      response.writeHead(200, { "content-type": "text/plain; version=0.0.4" });
      response.end(this.metricsText());
    } else {
      const answer = name === "/docs" ? this.#list : this.#version;
      answer.call(this, request, new URLSearchParams(query), name).then(([status, value]) => json(status, value), (error) => {
        this.log("a page can't be given now", { page: name, error: error.message });
        json(503, { error: "later" });
      });
    }
  }

  health() {
    const stores = Object.fromEntries([...this.stores.values()].map(({ name, isOpen }) => [name, isOpen]));
    return { etcd: this.#etcd?.isThere ?? null, ok: !this.#isEnding && Object.values(stores).includes(true), stores };
  }

  metricsText() {
    return this.metrics.text({ sessions: this.#browsers.size, stores: this.stores.values(), waiting: this.waiting.total, kept: this.#kept.bytes });
  }

  /** Adds a store, or says anew whether one takes new documents. */
  addStore(store) {
    checkStore(store);
    const found = this.stores.get(store.name);
    if (found !== undefined) found.takesNew = store.new ?? true;
    else this.#add(store);
  }

  /** Says anew which pages may connect. */
  set origins(origins) {
    checkOrigins(origins);
    this.#settings.origins = origins;
  }

  /** A user's rights have changed: his sessions end, and he is judged anew. */
  closeUser(id) {
    for (const browser of this.#users.get(id)?.browsers ?? []) browser.close(CODE.rights, "the rights have changed");
  }

  /** A user's rights have changed, of one document or of all: what he may no longer do ends at once, and his sessions stay. */
  revoke(id, doc) {
    for (const browser of [...(this.#users.get(id)?.browsers ?? [])]) {
      browser.judgeWaiting(doc);
      browser.judgeAgain(Infinity, doc);
    }
  }

  /** Takes in documents that a store had before. Gives those that have another place. */
  take(docs, store) {
    return this.places.take(docs, store);
  }

  /** Ends it: no new browsers, the replies to what was sent, then the end of all sessions. */
  async close() {
    if (this.#isEnding) return;
    this.#isEnding = true;
    for (const browser of [...this.#browsers]) browser.finish();
    for (const end = performance.now() + FAREWELL; this.#browsers.size > 0 && performance.now() < end; ) await new Promise((resolve) => setTimeout(resolve, 20));
    for (const browser of [...this.#browsers]) browser.close(CODE.ends, "the gateway ends");
    for (const timer of this.#timers) clearInterval(timer);
    for (const store of this.stores.values()) {
      store.end();
      await store.leases.close();
    }
    this.#sweep?.end();
    await this.#versions?.close();
    await this.places?.close();
    this.#etcd?.close();
    this.#unlock();
  }

  // What follows is for browsers.

  /** Whether a user, as `authorize` gave him, may send a message: a promise where that isn't known at once. Where it can't be found out the promise fails. */
  judge(user, message) {
    if (this.#can === undefined && this.#onCommand === undefined) return true;
    const { do: what, doc } = message;
    try {
      const verdict = chain(this.#mayDo(user, doc, what), (may) => {
        if (!may || KIND[what] !== "command" || this.#onCommand === undefined) return may;
        return chain(this.#onCommand({ user, doc, message }), (it) => this.#lets(it));
      });
      return chain(verdict, Boolean);
    } catch (error) {
      return Promise.reject(error);
    }
  }

  /** Whether a user may do something, apart from what `onCommand` says. */
  async mayDo(user, doc, what) {
    return Boolean(await this.#mayDo(user, doc, what));
  }

  async mayRead(user, doc) {
    return this.mayDo(user, doc, "fetch");
  }

  // What onCommand gave: true alone lets a command pass.
  #lets(verdict) {
    if (typeof verdict !== "boolean") this.log("onCommand gave neither true nor false, which refuses the command", { gave: typeof verdict });
    return verdict === true;
  }

  /** A command was taken, under a name that is this user's, if one is given. */
  taken(user, message, rev, isAgain, name) {
    if (name !== undefined) this.#versions?.note(message.doc, name, nameOf(user), rev);
    if (this.#onTaken === undefined) return;
    const failed = (error) => this.log("onTaken failed", { error: error.message });
    try {
      chain(this.#onTaken({ user, doc: message.doc, message, rev, isAgain }), () => {})?.catch(failed);
    } catch (error) {
      failed(error);
    }
  }

  arrive(holder, browser) {
    const before = this.#holders.get(holder);
    this.#holders.set(holder, browser);
    before?.close(CODE.again, "the same token came again");
  }

  depart(browser, holder, docs) {
    this.presence.depart(browser);
    this.#browsers.delete(browser);
    if (browser.user.browsers.size === 0) browser.user.goneSince = performance.now();
    if (holder === undefined || this.#holders.get(holder) !== browser) return;
    this.#holders.delete(holder);
    for (const { leases } of this.stores.values()) leases.depart(holder, docs);
  }

  #mayDo(user, doc, what) {
    if (this.#can === undefined || what === "unsubscribe") return true;
    if (what !== "lease") return this.#can(user, doc, RIGHT[what]);
    return chain(this.#can(user, doc, "edit"), (may) => may || this.#can(user, doc, "create"));
  }

  // Who asks; null where he isn't signed in, undefined where that can't be found out.
  async #signedIn(request) {
    try {
      const given = (await this.#authorize(request)) ?? null;
      if (given === null || given === false) return null;
      if (typeof idOf(given) !== "string" || idOf(given) === "") throw new Error("authorize gave no text and no object with an id");
      return given;
    } catch (error) {
      this.log("authorize failed", { error: error.message });
      return undefined;
    }
  }

  #open(webSocket, given, address) {
    const { limits } = this.#settings;
    const id = idOf(given);
    const user = this.#users.get(id) ?? new User(id, limits);
    if (this.#browsers.size >= limits.sessions || user.browsers.size >= limits.userSessions) {
      this.log("full", { user: id, sessions: this.#browsers.size, ofUser: user.browsers.size });
      webSocket.on("error", () => {});
      webSocket.close(CODE.full, "full");
      setTimeout(() => webSocket.terminate(), FAREWELL).unref();
      return;
    }
    const over = [user, address].find(({ owesMuch }) => owesMuch);
    if (over !== undefined) {
      const limit = over.nameOf(over.debt.limit);
      this.metrics.count("over_total", { limit });
      this.log("a user sends more than he may, and is closed", { user: id, limit });
      webSocket.on("error", () => {});
      webSocket.pause();
      webSocket.close(CODE.over, "more than you may send");
      setTimeout(() => webSocket.terminate(), SECOND).unref();
      return;
    }
    this.#users.set(id, user);
    user.goneSince = Infinity;
    this.#count += 1;
    const browser = new Browser(this, webSocket, user, given, this.#count, address);
    this.#browsers.add(browser);
  }

  #namesOf(pool) {
    return Array.from({ length: this.#settings.names }, (_, index) => `${this.#settings.name}-${pool}-${index}`);
  }

  #add(address) {
    const { name: prefix, readers, writers: first, guests, term, recall, data, limits } = this.#settings;
    const onLent = (doc, { name, epoch }) => {
      this.metrics.lent[epoch === 1 ? 1 : "more"] += 1;
      if (epoch > 1) this.log("a name is lent anew", { store: address.name, doc, name, epoch });
    };
    const naming = {
      most: limits.userNames,
      recall: recall * SECOND,
      isHere: (holder) => this.#holders.has(holder),
      onRecall: (doc, from, to) => {
        this.metrics.count("recalled_total");
        this.log("a name is asked back", { store: address.name, doc, from, to });
        this.#holders.get(from)?.close(CODE.ends, "its name was asked back"); // it asks anew under which name it writes
      },
    };
    const leases = this.#etcd === undefined
      ? new Leases({ file: path.join(data, `leases-${address.name}`), names: this.#pool, first, term, onLent, naming, onFailure: this.#onUnwritten })
      : new EtcdLeases({ etcd: this.#etcd, store: address.name, pool: async () => this.#poolOrNone(), first, term, onLent, naming, at: prefix, places: this.places });
    const store = new Store(address, { prefix, readers, guests, leases, metrics: this.metrics, log: this.log, limits, kept: this.#kept });
    this.stores.set(address.name, store);
    if (this.#pool !== undefined) store.openWriters(this.#pool.slice(0, first));
  }

  #poolOrNone() {
    if (this.#pool === undefined) throw new Error("etcd hasn't told this gateway's pool of names yet");
    return this.#pool;
  }

  // The pool's names are kept in etcd, too: a gateway that loses its pool may not lend what it lent before as new.
  async #findPool() {
    while (!this.#isEnding && this.#pool === undefined) {
      try {
        const { value } = await this.#etcd.create(`pool/${this.#settings.name}`, randomBytes(4).toString("hex"));
        this.#pool = this.#namesOf(value);
      } catch {
        await new Promise((resolve) => setTimeout(resolve, RETRY).unref());
      }
    }
    if (this.#isEnding) return;
    for (const store of this.stores.values()) store.openWriters(this.#pool.slice(0, this.#settings.writers));
  }

  async #sweepUp() {
    this.#sweep = new Sweep({ etcd: this.#etcd, stores: this.stores });
    try {
      const removed = await this.#sweep.run();
      this.metrics.count("swept_total", {}, removed);
      if (removed > 0) this.log("rests of creations that were refused are removed from etcd", { documents: removed });
    } catch (error) {
      this.log("etcd can't be swept", { error: error.message });
    }
  }

  async #list(request, query) {
    const user = await this.#signedIn(request);
    if (user === null) return [401, { error: "not signed in" }];
    if (user === undefined) return [503, { error: "later" }];
    const wanted = Math.min(Number.parseInt(query.get("limit") ?? "100", 10), MOST_LISTED);
    if (!(wanted > 0)) return [400, { error: "limit is a whole number above 0" }];
    const docs = [];
    let after = query.get("after") ?? "";
    for (let looked = 0; looked < MOST_LOOKED; ) {
      const found = await this.places.list(after, wanted);
      looked += found.length;
      for (const doc of found) {
        after = doc;
        if (await this.#mayDo(user, doc, "fetch")) docs.push(doc);
        if (docs.length === wanted) return [200, { docs, next: after }];
      }
      if (found.length < wanted) return [200, { docs, next: null }];
    }
    return [200, { docs, next: after }];
  }

  async #version(request, query, name) {
    const user = await this.#signedIn(request);
    if (user === null) return [401, { error: "not signed in" }];
    if (user === undefined) return [503, { error: "later" }];
    const asked = versionIn(name);
    return (await this.mayRead(user, asked.doc)) ? this.#versions.page(idOf(user), asked, query) : [403, { error: "not allowed" }];
  }

  #look() {
    for (const browser of [...this.#browsers]) browser.look();
  }

  #eachSecond() {
    this.#said.clear();
    const forgotten = performance.now() - FORGOTTEN;
    for (const [id, { goneSince }] of this.#users) if (goneSince < forgotten) this.#users.delete(id);
    for (const [from, { connections, isEven }] of this.#addresses) if (connections === 0 && isEven) this.#addresses.delete(from);
    for (const store of this.stores.values()) {
      store.leases.tidy();
      store.serveNames();
    }
    const before = performance.now() - SECOND * this.#settings.recheck;
    for (const browser of [...this.#browsers]) {
      browser.sent /= 2;
      browser.giveUpWaiting();
      if (this.#can !== undefined) browser.judgeAgain(before);
      browser.count();
    }
  }
}

/**
 * Begins a gateway; throws a reason where its settings can't be used. docs/GATEWAY.md says what they are.
 * @param {import("./gateway.js").Settings} settings
 */
export async function createGateway(settings) {
  const gateway = new Gateway(checked(settings));
  try {
    await gateway.begin();
  } catch (error) {
    await gateway.close().catch(() => {}); // what it has taken is given back
    throw error;
  }
  return gateway;
}
