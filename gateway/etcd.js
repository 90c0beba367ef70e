// etcd by its HTTP interface, of etcd 3.4 and later: keys and values are in base64.

import http from "node:http";
import https from "node:https";

const PATIENCE = 5_000; // milliseconds for an answer
const MOST_ANSWER = 1 << 24; // bytes; a page of the list, and a document's leases, have far less
const SHOWN = 80; // characters of garbage that are logged

export const encoded = (text) => Buffer.from(text).toString("base64");
export const decoded = (text = "") => Buffer.from(text, "base64").toString();

/** @param {string} prefix @returns {string} the first text above all that begin with it */
const above = (prefix) => prefix.slice(0, -1) + String.fromCharCode(prefix.charCodeAt(prefix.length - 1) + 1);

function parsed(text) {
  try {
    return JSON.parse(text);
  } catch {
    return undefined;
  }
}

const isObject = (value) => typeof value === "object" && value !== null;
const isText = (value) => typeof value === "string";
const isPair = (pair) => isObject(pair) && isText(pair.key) && (pair.value === undefined || isText(pair.value)) && /^\d+$/.test(pair.mod_revision);

/** Whether an answer is one of a range, and has a pair where it has to have one. */
const isFound = (answer, key) => isObject(answer) && (answer.kvs === undefined || (Array.isArray(answer.kvs) && answer.kvs.every(isPair))) && (key === undefined || answer.kvs?.length === 1);

/** Whether an answer is one of a transaction. */
const isVerdict = (answer) => (answer.succeeded === undefined || typeof answer.succeeded === "boolean") && (answer.responses === undefined || Array.isArray(answer.responses));

export class Etcd {
  #urls;
  #prefix;
  #log;
  #turn = 0;
  #agents = { "http:": new http.Agent({ keepAlive: true, maxSockets: 32 }), "https:": new https.Agent({ keepAlive: true, maxSockets: 32 }) };
  isThere = true; // as far as is known

  #onGarbage;
  #most;

  /**
   * @param {{ urls: string[], prefix?: string, log?: (event: string, about?: object) => void, onGarbage?: () => void, most?: number }} options
   *     `onGarbage` is called where what comes is no answer of etcd; one has `most` bytes
   */
  constructor({ urls, prefix = "richd/", log = () => {}, onGarbage = () => {}, most = MOST_ANSWER }) {
    this.#most = most;
    this.#onGarbage = onGarbage;
    this.#urls = urls;
    this.#prefix = prefix;
    this.#log = log;
  }

  /** A key's value and the revision that wrote it, or undefined. */
  async get(key) {
    const [found] = await this.range({ key: this.#key(key) });
    return found;
  }

  /** Those whose key begins with a text, in order of keys; from the one behind `after` on, at most `limit`. */
  async under(text, { after = "", limit = 0, keysOnly = false } = {}) {
    const from = after === "" ? text : `${text}${after}\0`;
    return this.range({ key: this.#key(from), range_end: encoded(above(this.#prefix + text)), limit, keys_only: keysOnly });
  }

  /** How many keys begin with a text. */
  async countUnder(text) {
    const { count = "0" } = await this.#post("range", (it) => isFound(it), { key: this.#key(text), range_end: encoded(above(this.#prefix + text)), count_only: true });
    return Number(count);
  }

  /**
   * One transaction. Gives its revision where all that is compared holds, so that all is done, and false else.
   * @param {{ key: string, mod?: number }[]} compare  a key's revision; without it, that there is no such key
   * @param {{ key: string, value?: string }[]} then  what is put, or deleted where it has no value
   */
  async transact(compare, then) {
    const { succeeded = false, header } = await this.#post("txn", (it) => isVerdict(it), {
      compare: compare.map(({ key, mod }) => (mod === undefined
        ? { key: this.#key(key), target: "CREATE", result: "EQUAL", create_revision: 0 }
        : { key: this.#key(key), target: "MOD", result: "EQUAL", mod_revision: mod })),
      success: then.map(({ key, value }) => (value === undefined
        ? { requestDeleteRange: { key: this.#key(key) } }
        : { requestPut: { key: this.#key(key), value: encoded(value) } })),
      failure: [],
    });
    return succeeded && String(header.revision);
  }

  /** Puts a value where there is none, in one transaction. Gives the value that stands there then, and its revision. */
  async create(key, value) {
    const get = { requestRange: { key: this.#key(key) } };
    const { responses } = await this.#post("txn", (it) => isVerdict(it) && isFound(it.responses?.at?.(-1)?.response_range, key), {
      compare: [{ key: this.#key(key), target: "CREATE", result: "EQUAL", create_revision: 0 }],
      success: [{ requestPut: { key: this.#key(key), value: encoded(value) } }, get],
      failure: [get],
    });
    return this.#found(responses.at(-1).response_range)[0];
  }

  /** Deletes all whose key begins with a text. */
  async removeUnder(text) {
    await this.#post("deleterange", () => true, { key: this.#key(text), range_end: encoded(above(this.#prefix + text)) });
  }

  async range(body) {
    return this.#found(await this.#post("range", (it) => isFound(it), body));
  }

  close() {
    for (const agent of Object.values(this.#agents)) agent.destroy();
  }

  #key(key) {
    return encoded(this.#prefix + key);
  }

  #found({ kvs = [] }) {
    return kvs.map(({ key, value, mod_revision }) => ({ key: decoded(key).slice(this.#prefix.length), value: decoded(value), mod: mod_revision }));
  }

  // Asks one after the other until one answers.
  async #post(path, isAnswer, body) {
    let trouble;
    for (let tries = 0; tries < this.#urls.length; tries += 1) {
      try {
        const answer = await this.#request(new URL(`/v3/kv/${path}`, this.#urls[this.#turn]), JSON.stringify(body), isAnswer);
        if (!this.isThere) this.#log("etcd is back");
        this.isThere = true;
        return answer;
      } catch (error) {
        trouble = error;
        this.#turn = (this.#turn + 1) % this.#urls.length;
      }
    }
    if (this.isThere) this.#log("etcd is away", { error: trouble.message });
    this.isThere = false;
    throw trouble;
  }

  /** @param {URL} url @param {string} body @param {(answer: any) => boolean} isAnswer @returns {Promise<any>} */
  #request(url, body, isAnswer) {
    return new Promise((resolve, reject) => {
      const { request } = url.protocol === "https:" ? https : http;
      const asked = request(url, { method: "POST", agent: this.#agents[url.protocol], headers: { "content-type": "application/json" } }, (response) => {
        const parts = [];
        let bytes = 0;
        const garbage = (text) => {
          this.#onGarbage();
          this.#log("etcd sends garbage", { what: text.slice(0, SHOWN) });
          reject(new Error("etcd sends garbage"));
        };
        response.on("data", (part) => {
          parts.push(part);
          bytes += part.length;
          if (bytes <= this.#most || asked.destroyed) return;
          garbage(parts[0].toString());
          asked.destroy();
        });
        response.on("error", reject);
        response.on("end", () => {
          if (asked.destroyed && bytes > this.#most) return;
          const text = Buffer.concat(parts).toString();
          if (response.statusCode !== 200) return reject(new Error(`etcd answers ${response.statusCode}: ${text.slice(0, 200)}`));
          const answer = parsed(text);
          if (isObject(answer) && isObject(answer.header) && isAnswer(answer)) return resolve(answer);
          garbage(text);
        });
      });
      let timer;
      asked.on("socket", () => (timer = setTimeout(() => asked.destroy(new Error("etcd doesn't answer")), PATIENCE))); // not while it waits for one
      asked.on("close", () => clearTimeout(timer));
      asked.on("error", reject);
      asked.end(body);
    });
  }
}
