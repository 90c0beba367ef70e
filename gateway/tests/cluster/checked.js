// What all browsers saw, compared with what the stores hold.

import { letterOf } from "./typer.js";

const MOST_DIFFERENCES = 40; // that are told
// The same operations, however their attributes are ordered.
const spelled = (ops) => JSON.stringify(ops.map(({ insert, attributes = {} }) => [insert, Object.entries(attributes).sort()]));

export class Checked {
  /** @type {string[]} */
  differences = [];
  counts = {};
  times = {};
  acknowledged = 0;
  lost = 0;
  twice = 0;
  #seen;
  #stores;
  #places;
  #docs = new Map(); // doc -> { store, rev, ops }

  /**
   * @param {any[]} seen  what each process of browsers gave
   * @param {{ name: string, docs: Map<string, { rev: number, ops: any[] }> }[]} stores  what `richd dump` prints of each
   * @param {Map<string, string>} places  doc -> store, by etcd
   */
  constructor(seen, stores, places) {
    this.#seen = seen;
    this.#stores = stores;
    this.#places = places;
    for (const { differences } of seen) differences.forEach((it) => this.differ(it));
    for (const { counts } of seen) for (const [what, count] of Object.entries(counts)) this.counts[what] = (this.counts[what] ?? 0) + count;
    for (const { times } of seen) {
      for (const [phase, { reply, seen: later, news }] of Object.entries(times)) {
        const all = (this.times[phase] ??= { reply: [], seen: [], news: 0 });
        all.reply.push(...reply);
        all.seen.push(...later);
        all.news += news;
      }
    }
  }

  differ(what) {
    if (this.differences.length < MOST_DIFFERENCES) this.differences.push(what);
  }

  compare() {
    this.#place();
    for (const { shown, followed } of this.#seen) {
      for (const { doc, rev, ops } of shown) {
        const held = this.#docs.get(doc);
        if (held === undefined) this.differ(`${doc} is in no store`);
        else if (held.rev !== rev) this.differ(`${doc}: a browser is at ${rev}, and ${held.store} has ${held.rev}`);
        else if (spelled(held.ops) !== spelled(ops)) this.differ(`${doc}: a browser shows something else at ${rev} than ${held.store} has`);
      }
      for (const { id, doc, rev } of followed) {
        const held = this.#docs.get(doc);
        if (rev !== held?.rev) this.differ(`${doc}: ${id} was told up to ${rev}, and it is at ${held?.rev}`);
      }
    }
    const written = grouped(this.#seen.flatMap((it) => it.written));
    for (const [doc, writers] of written) this.#count(doc, writers);
  }

  /** The documents that were created last are all that one store has. */
  newOnes(docs, store) {
    const held = [...this.#docs].filter(([, it]) => it.store === store).map(([doc]) => doc);
    if (held.sort().join() !== [...docs].sort().join()) this.differ(`${store} has ${held.join(", ")}, and is to have the new ones alone`);
  }

  inStores = () => this.#stores.map(({ name, docs }) => `${docs.size} in ${name}`).join(", ");

  summary() {
    return `${this.acknowledged} acknowledged edits, ${this.lost} lost, ${this.twice} twice, ${this.differences.length} differences`;
  }

  // Each document is in one store, which is the one that etcd names.
  #place() {
    for (const { name, docs } of this.#stores) {
      for (const [doc, { rev, ops }] of docs) {
        if (this.#docs.has(doc)) this.differ(`${doc} is in ${this.#docs.get(doc).store} and in ${name}`);
        if (this.#places.get(doc) !== name) this.differ(`${doc} is in ${name}, and etcd says ${this.#places.get(doc)}`);
        this.#docs.set(doc, { store: name, rev, ops });
      }
    }
    for (const [doc, store] of this.#places) if (!this.#docs.has(doc)) this.differ(`${doc} has a place, ${store}, and is in no store`);
  }

  // A revision is one edit. In a plain document each letter that was acknowledged stands once, and one that wasn't once at most.
  #count(doc, writers) {
    const { rev = 0, ops = [] } = this.#docs.get(doc) ?? {};
    const edits = writers.reduce((sum, writer) => sum + writer.edits, 0);
    const unknown = new Set(writers.flatMap((writer) => writer.unknown));
    this.acknowledged += writers.reduce((sum, { acknowledged }) => sum + acknowledged, 0);
    if (rev - 1 > edits) this.differ(`${doc} has ${rev - 1} changes of ${edits} edits`);
    if (!writers[0].isPlain) return;
    const times = new Map();
    for (const letter of ops.map(({ insert }) => insert).join("").replace("\n", "")) times.set(letter, (times.get(letter) ?? 0) + 1);
    const letters = writers.flatMap(({ typed, place, among }) => Array.from({ length: typed }, (_, index) => letterOf(index, place, among)));
    const lost = letters.filter((letter) => !times.has(letter) && !unknown.has(letter));
    const twice = letters.filter((letter) => times.get(letter) > 1);
    this.lost += lost.length;
    this.twice += twice.length;
    if (lost.length > 0) this.differ(`${doc} lost ${lost.join("")}`);
    if (twice.length > 0) this.differ(`${doc} has ${twice.join("")} twice`);
    for (const letter of letters) times.delete(letter);
    if (times.size > 0) this.differ(`${doc} has letters that nobody typed: ${[...times.keys()].join("").slice(0, 20)}`);
  }
}

function grouped(all) {
  const groups = new Map();
  for (const it of all) groups.set(it.doc, [...(groups.get(it.doc) ?? []), it]);
  return groups;
}
