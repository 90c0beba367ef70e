// The versions of a document, as an archive has them: which there are, by whom, and one as it was.
//
// What keeps the archive is asked for them: `python3 -m richd`, which reads SQLite and PostgreSQL, makes rows of what was just taken, and folds
// them. A reader of the tables in this language would have all of that a second time, and Node has none for SQLite before 22.5. A question
// takes a tenth of a second of a processor, and somebody's click asks it.
//
// An archive knows the name under which a browser wrote. Whose that was is kept here, from the first command on that a store took of it.

import { execFile } from "node:child_process";
import path from "node:path";
import { Journal, readLines } from "./journal.js";
import { Turns } from "./turns.js";

const COMMAND = ["python3", "-m", "richd"];
const AT_ONCE = 2; // questions
const MOST_WAITING = 50; // further ones of a user; users take turns
const PATIENCE = 30_000; // milliseconds that one may take
const MOST_LISTED = 1_000; // versions of a page
const PAGE = /^\/docs\/([A-Za-z0-9._-]{1,64})\/(?:versions|at\/([1-9]\d{0,15}))$/;

/** The document and the revision of a page's path, undefined where it is none of these. @param {string} name */
export function versionIn(name) {
  const [, doc, rev] = PAGE.exec(name) ?? [];
  return doc === undefined ? undefined : { doc, rev };
}

/** Why an archive setting can't be used, or undefined. @param {any} archive @param {string[]} stores  their names */
export function archiveFault(archive, stores) {
  const isText = (it) => typeof it === "string" && it !== "";
  if (archive === undefined || isText(archive)) return undefined;
  const isRight = typeof archive === "object" && archive !== null && Object.entries(archive).every(([store, it]) => stores.includes(store) && isText(it));
  return isRight ? undefined : "archive is a path or a URL, or has one by each name of a store";
}

const isWriter = (line) => Array.isArray(line) && line.length === 4 && line.slice(0, 3).every((it) => typeof it === "string") && Number.isSafeInteger(line[3]);

/** Whose a name was in a document, and from which revision on: in a file, or in etcd, where other gateways find it. */
class Writers {
  #etcd;
  #journal;
  #onFailure;
  #last = new Map(); // `document/name` -> user
  /** @type {Map<string, { name: string, user: string, rev: number }[]>} of the file, by document, in the order of their revisions */
  #docs = new Map();

  /** @param {{ data?: string, etcd?: import("./etcd.js").Etcd, onFailure: (error: Error) => void }} where */
  constructor({ data, etcd, onFailure }) {
    this.#etcd = etcd;
    this.#onFailure = onFailure;
    if (etcd !== undefined) return;
    const file = path.join(data, "writers");
    const { values } = readLines(file, isWriter);
    for (const line of values) this.#add(line);
    this.#journal = new Journal(file, values, { onFailure });
  }

  /** A command was taken under a name. */
  note(doc, name, user, rev) {
    const key = `${doc}/${name}`;
    if (this.#last.get(key) === user) return;
    this.#last.set(key, user);
    const written = this.#etcd === undefined ? this.#keep([doc, name, user, rev]) : this.#etcd.create(`writer/${key}/${rev}`, user);
    written.catch((error) => {
      this.#last.delete(key); // it is written with the next command
      this.#onFailure(error);
    });
  }

  async of(doc) {
    if (this.#etcd === undefined) return this.#docs.get(doc) ?? [];
    const found = (await this.#etcd.under(`writer/${doc}/`)).map(({ key, value }) => {
      const [name, rev] = key.split("/").slice(2);
      return { name, user: value, rev: Number(rev) };
    });
    return found.sort((one, other) => one.rev - other.rev);
  }

  async close() {
    await this.#journal?.close();
  }

  #keep(line) {
    this.#add(line);
    return this.#journal.add(line);
  }

  #add([doc, name, user, rev]) {
    this.#last.set(`${doc}/${name}`, user);
    const held = this.#docs.get(doc) ?? [];
    held.push({ name, user, rev });
    this.#docs.set(doc, held.sort((one, other) => one.rev - other.rev));
  }
}

/** The program has said why it can't answer. */
class Unanswered extends Error {}

/** Asks the archive's program, and gives the values of the lines that it prints. @param {string[]} words @param {number} most  bytes */
function ask(words, most) {
  const [program, ...begin] = COMMAND;
  return new Promise((resolve, reject) => {
    execFile(program, [...begin, ...words], { timeout: PATIENCE, maxBuffer: most }, (error, out, said) => {
      const lines = out.split("\n").filter(Boolean);
      if (error === null || lines[0]?.includes('"missing"')) resolve(lines.map((line) => JSON.parse(line)));
      else reject(new Unanswered(said.trim().split("\n").at(-1) || error.message));
    });
  });
}

export class Versions {
  #archive;
  #places;
  #writers;
  #most;
  #running = 0;
  /** @type {Turns<() => void>} */
  #waiting = new Turns();
  /** @type {Map<string, number>} user -> how many of his wait */
  #counts = new Map();

  /**
   * @param {{ archive: string | Record<string, string>, places: { find: (doc: string) => Promise<string | null | undefined> }, data?: string,
   *   etcd?: import("./etcd.js").Etcd, most: number, onFailure: (error: Error) => void }} settings  `most` bytes of an answer
   */
  constructor({ archive, places, most, ...where }) {
    this.#archive = archive;
    this.#places = places;
    this.#most = most;
    this.#writers = new Writers(where);
  }

  /** A command was taken, under a name that is a user's. */
  note(doc, name, user, rev) {
    this.#writers.note(doc, name, user, rev);
  }

  /**
   * The status of a page, and its value.
   * @param {string} user  who asks
   * @param {{ doc: string, rev?: string }} asked
   * @param {URLSearchParams} query
   * @returns {Promise<[number, object]>}
   */
  async page(user, { doc, rev }, query) {
    const archive = typeof this.#archive === "string" ? this.#archive : this.#archive[(await this.#places.find(doc)) ?? ""];
    if (archive === undefined) return [404, { error: "no archive" }];
    if ((this.#counts.get(user) ?? 0) >= MOST_WAITING) return [503, { error: "later" }];
    return rev === undefined ? this.#list(user, archive, doc, query) : this.#show(user, archive, doc, rev);
  }

  close() {
    return this.#writers.close();
  }

  async #list(user, archive, doc, query) {
    const limit = Math.min(Number.parseInt(query.get("limit") ?? "100", 10), MOST_LISTED);
    const before = query.get("before");
    if (!(limit > 0)) return [400, { error: "limit is a whole number above 0" }];
    if (before !== null && !/^[1-9]\d{0,15}$/.test(before)) return [400, { error: "before is a revision" }];
    const at = before === null ? [] : ["--at", String(Number(before) - 1)];
    const lines = await this.#ask(user, "history", "--json", "--brief", "--quiet", "--limit", String(limit), ...at, "--", archive, doc);
    if (isMissing(lines[0])) return [404, { error: lines[0].missing }];
    const writers = await this.#writers.of(doc);
    const revisions = lines.filter(({ rev }) => rev !== undefined);
    const versions = lines.map((line) => (line.rev === undefined ? { first: line.first, last: line.last, missing: line.missing } : version(line, writers)));
    return [200, { doc, versions, next: revisions.length < limit ? null : revisions.at(-1).rev }];
  }

  async #show(user, archive, doc, rev) {
    const [shown] = await this.#ask(user, "show", "--json", "--quiet", "--at", rev, "--", archive, doc);
    return isMissing(shown) ? [404, { error: shown.missing }] : [200, shown];
  }

  async #ask(user, ...words) {
    if (this.#running >= AT_ONCE) await this.#turn(user);
    else this.#running += 1;
    try {
      return await ask(words, this.#most);
    } finally {
      const next = this.#waiting.next(() => true);
      if (next !== undefined) next();
      else this.#running -= 1;
    }
  }

  async #turn(user) {
    this.#counts.set(user, (this.#counts.get(user) ?? 0) + 1);
    await new Promise((resolve) => this.#waiting.add(user, () => resolve(undefined)));
    const left = this.#counts.get(user) - 1;
    if (left > 0) this.#counts.set(user, left);
    else this.#counts.delete(user);
  }
}

/** Whether the program says that it hasn't what was asked for; a gap says which revisions it hasn't. */
const isMissing = (line) => line?.missing !== undefined && line.first === undefined;

function version({ rev, kind, source, time }, writers) {
  const writer = writers.findLast((it) => it.name === source && it.rev <= rev);
  return { rev, kind, time, ...(writer === undefined ? { source } : { user: writer.user }) };
}
