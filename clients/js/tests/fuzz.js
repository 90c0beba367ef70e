// Three who write at once with an editor each, over kills of the server, cuts, deaf lines, deletions, undos, and reloads of pages that keep what
// was typed. checks/clients.py runs it. usage: node fuzz.js [--gateway] SECONDS [SEED]
//
// With --gateway they write through one, which is killed, too, and each shows the carets of the others.
//
// A round has a store of its own and lasts some ten seconds. In the first of three only characters are put in, each one another: at the end each
// is there once. The second deletes, formats, pastes and undoes too, and the third deletes the document meanwhile. At the end of each all three
// editors, their documents and `richd dump` hold the same.

import path from "node:path";
import { webSockets } from "../bridge.js";
import { Delta } from "../delta.js";
import { RichdError } from "../errors.js";
import { bind } from "../quill.js";
import { connect } from "../offline.js";
import { Browser } from "./browser.js";
import { Draw } from "./draw.js";
import { Store } from "./program.js";
import { proxied } from "./proxy.js";
import { Quill } from "./quill_stub.js";

const words = process.argv.slice(2);
const programs = words[0] === "--gateway" ? await import("../../../gateway/tests/programs.js") : undefined;
const [seconds = 300, seed = 1] = words.slice(programs === undefined ? 0 : 1).map(Number);
const PEOPLE = 3;
const ROUND = 10_000; // milliseconds of writing
const LONGEST = 120_000; // milliseconds until all is settled, on a busy machine too
const PATIENCE = 1_000;
const SHAPES = [[], ["--keep", "3"], ["--keep", "16", "--slots", "2", "--slot", "65536"], ["--slots", "2", "--slot", "16384"]];
const KINDS = ["characters", "changes", "deletions"];

const draw = new Draw(seed);
const count = { edits: 0, kills: 0, "kills of the gateway": 0, cuts: 0, "deaf lines": 0, deletions: 0, undos: 0, compositions: 0, reloads: 0, "of them unsaved": 0, rounds: 0, revisions: 0 };
const troubles = {};
const differences = [];
let characters = 0; // that were put in, in all rounds

const pause = (milliseconds) => new Promise((resolve) => setTimeout(resolve, milliseconds));
const sorted = (attributes = {}) => Object.entries(attributes).sort();
const spelled = (ops) => JSON.stringify(ops.map(({ attributes, ...op }) => [op, sorted(attributes)]));

/** One who writes. */
class Person {
  calls = new Set(); // that have no answer yet
  browser = new Browser();

  constructor(name, round) {
    Object.assign(this, { name, round });
  }

  async begin() {
    this.page = this.browser.page(this.page?.tab);
    const { address } = this.proxy;
    const link = programs === undefined ? address : { url: `ws://127.0.0.1:${address.port}/`, WebSocket: webSockets().WebSocket };
    this.client = await connect({ ...link, server: "store", patience: PATIENCE, signal: this.page.signal }, this.page);
    await this.open();
  }

  end() {
    this.unbind();
    this.page.goes();
  }

  async open() {
    this.unbind?.();
    for (;;) {
      try {
        this.document = await this.client.open("d", { create: [{ insert: "\n" }] });
        break;
      } catch (error) {
        if (!(error instanceof RichdError)) throw error;
        await pause(50); // it was deleted again
      }
    }
    const { signal } = this.page;
    this.document.addEventListener("doubt", ({ delta }) => {
      const mayBe = this.round.kind !== "characters" || signal.aborted; // its numbers are those of other commands, too
      if (!mayBe) this.round.differ(`${this.name} doubts ${spelled(delta.ops)}`);
    });
    this.document.addEventListener("trouble", ({ error, delta }) => {
      if (signal.aborted) return; // the page is gone
      troubles[error.name] = (troubles[error.name] ?? 0) + 1;
      const isOurs = ["Parted", "BadOps", "PastEnd", "CutsPair"].includes(error.name);
      if (isOurs) this.round.differ(`${this.name}: ${error.message} of ${spelled(delta.ops)} on ${spelled(this.document.contents.ops)}`);
    });
    this.quill = new Quill({ tellsAtOnce: draw.below(2) === 0, modules: { cursors: programs !== undefined } });
    this.quill.history.options.delay = 300;
    this.quill.on("text-change", (delta, before, source) => (count.edits += source === "user" ? 1 : 0));
    this.unbind = bind(this.quill, this.document);
    this.isComposing = false;
  }

  /** Loads the page anew, once what is shown is kept, whether or not it is saved. */
  async reload() {
    this.endComposition();
    await Promise.all(this.calls); // whose answer the next page wouldn't know
    this.quill.update();
    if (this.document.isClosed || !this.document.isKept) return;
    count.reloads += 1;
    count["of them unsaved"] += this.document.isSaved ? 0 : 1;
    this.end();
    await this.begin();
  }

  endComposition() {
    if (this.isComposing) this.quill.endComposition();
    this.isComposing = false;
  }

  /** A new character, which no other is like. */
  character() {
    characters += 1;
    this.round.put.push(String.fromCodePoint(0x10000 + characters));
    return this.round.put.at(-1);
  }

  /** A place of the editor that parts no character, before its last line's end. */
  place() {
    const contents = this.quill.getContents();
    const place = draw.below(contents.length());
    const isParted = /^[\udc00-\udfff]/.test(contents.slice(place, place + 1).ops[0].insert);
    return isParted ? place - 1 : place;
  }

  async act(kind) {
    if (this.document.isClosed) return this.open();
    const { quill } = this;
    const what = draw.below(kind === "characters" ? 12 : 30);
    if (this.isComposing) return this.compose(what);
    if (what < 6) return quill.press(this.place(), this.character());
    if (what < 8) return this.format();
    if (what < 9) return quill.type(this.place(), this.character()), pause(draw.below(5)), quill.update();
    if (what < 11) return this.compose(what);
    if (what === 11) return draw.below(8) === 0 ? this.reload() : undefined;
    if (what < 17) return this.erase();
    if (what < 20) return quill.press(this.place(), draw.of(["and ", "\n", "\u00e9\u{1f600}", { image: draw.of(["p", "q"]) }]), draw.attributes(false));
    if (what < 21) return draw.below(20) === 0 ? quill.press(this.place(), "paste ".repeat(2_000 + draw.below(2_000))) : undefined;
    if (what < 29) return this.undo(what);
    if (kind === "deletions" && draw.below(3) === 0) return this.delete();
  }

  compose(what) {
    if (this.isComposing && what % 2 === 0) return this.endComposition();
    if (!this.isComposing) [this.isComposing, this.composed, count.compositions] = [true, this.place(), count.compositions + 1];
    this.quill.compose(this.composed, this.character()); // before what it has composed already
  }

  format() {
    const [one, other] = [this.place(), this.place()].sort((a, b) => a - b);
    const change = new Delta().retain(one).retain(other - one, draw.attributes(true) ?? { bold: true });
    this.quill.updateContents(change.chop(), "user");
  }

  erase() {
    const length = this.quill.getLength();
    const [one, other] = [this.place(), this.place()].sort((a, b) => a - b);
    const erased = length > 5_000 ? other - one : Math.min(other - one, 6);
    const end = /^[\udc00-\udfff]/.test(this.quill.getContents().slice(one + erased, one + erased + 1).ops[0].insert) ? 1 : 0;
    this.quill.updateContents(new Delta().retain(one).delete(erased + end), "user");
  }

  undo(what) {
    count.undos += 1;
    if (what < 23) return this.quill.history.undo();
    if (what < 24) return this.quill.history.redo();
    if (what < 26) return this.document.history.undo();
    if (what < 27) return this.document.history.redo();
    this.call(this.client.undo("d", { timeout: Infinity }));
  }

  /** Lets a call end as it may. */
  call(answer) {
    const call = answer.catch(() => {}).then(() => this.calls.delete(call));
    this.calls.add(call);
  }

  delete() {
    count.deletions += 1;
    this.call(this.client.delete("d", { timeout: Infinity }));
  }
}

/** Some ten seconds of writing, on a store of its own. */
class Round {
  put = []; // the characters
  #endings = [];
  #isOver = false;

  constructor(kind) {
    this.kind = kind;
    this.shape = draw.of(SHAPES);
  }

  after(ending) {
    this.#endings.push(ending);
  }

  differ(what) {
    differences.push(what);
    console.log(`DIFFERENCE  ${what}, in round ${count.rounds}, ${this.kind}, ${this.shape.join(" ")}`);
  }

  async run() {
    this.store = new Store(this, "--docs", "8", "--cell", "4194304", ...this.shape);
    this.address = await this.store.serve();
    this.people = Array.from({ length: PEOPLE }, (_, index) => new Person(`u${index}`, this));
    const front = programs === undefined ? this.address : await this.#startGateway();
    for (const person of this.people) {
      person.proxy = await proxied(this, front);
      await person.begin();
    }
    const working = [this.#disturb(), ...this.people.map((person) => this.#work(person))];
    await pause(ROUND);
    this.#isOver = true;
    await Promise.all(working);
    if (await this.#settle()) await this.#compare();
    for (const person of this.people) person.end();
    for (const ending of this.#endings.reverse()) await ending();
    count.rounds += 1;
  }

  async #startGateway() {
    const { GatewayProgram, folderFor } = programs;
    const settings = { name: "f", stores: [{ name: "s", ...this.address }], data: path.join(folderFor(this), "data"), limits: { userMessages: 1_000_000 } };
    this.gateway = new GatewayProgram(this, () => settings, "ignore");
    await this.gateway.start();
    return { host: "127.0.0.1", port: this.gateway.port };
  }

  async #work(person) {
    while (!this.#isOver) {
      await pause(draw.below(40));
      for (let burst = draw.below(8) === 0 ? 10 : 1; burst > 0; burst -= 1) await person.act(this.kind);
    }
    person.endComposition();
    await Promise.resolve();
    person.quill.update();
  }

  async #disturb() {
    while (!this.#isOver) {
      await pause(200 + draw.below(1_000));
      const { proxy } = draw.of(this.people);
      const what = draw.below(10);
      if (what < 5) {
        count.cuts += 1;
        proxy.cut();
      } else if (what === 5 && this.gateway !== undefined) {
        count["kills of the gateway"] += 1;
        await this.gateway.kill();
        await this.gateway.start();
      } else if (what < 8) {
        count.kills += 1;
        await this.store.kill();
        await pause(draw.below(3) === 0 ? draw.below(800) : 0);
        await this.store.serve(this.address.port);
      } else {
        count["deaf lines"] += 1;
        proxy.isDeaf = true;
        await pause(draw.below(2 * PATIENCE));
        proxy.isDeaf = false;
        proxy.cut(); // some lines are missing
      }
    }
  }

  async #settle() {
    for (const end = performance.now() + LONGEST; performance.now() < end; await pause(20)) {
      for (const person of this.people) if (person.document.isClosed) await person.open();
      const documents = this.people.map(({ document }) => document);
      const { revision } = documents[0];
      if (!documents.every((document) => document.isSaved && document.revision === revision)) continue;
      const shown = await this.people[0].client.fetch("d").catch(() => undefined);
      if (shown?.rev === revision) return true;
    }
    this.differ(`not settled: ${this.people.map(({ document }) => `${document.state} at ${document.revision}`)}`);
    return false;
  }

  async #compare() {
    await this.store.kill();
    const { ops, rev } = this.store.dump().find(({ doc }) => doc === "d");
    count.revisions += rev;
    for (const { name, quill, document } of this.people) {
      if (spelled(document.contents.ops) !== spelled(ops)) this.differ(`${name}'s document isn't what richd dump has`);
      if (spelled(quill.getContents().ops) !== spelled(ops)) this.differ(`${name}'s editor isn't what richd dump has`);
    }
    if (this.kind !== "characters") return;
    const text = ops.map(({ insert }) => insert).join("").replace("\n", "");
    if ([...text].sort().join() !== [...this.put].sort().join()) this.differ(`${[...text].length} characters of ${this.put.length}`);
  }
}

process.on("unhandledRejection", (error) => differences.push(console.log(`DIFFERENCE  ${error?.stack ?? error}`) ?? String(error)));
const end = performance.now() + 1_000 * seconds;
for (let number = 0; performance.now() < end; number += 1) await new Round(KINDS[number % KINDS.length]).run();
const told = Object.entries(troubles).map(([name, times]) => `${times} ${name}`).join(", ");
console.log(`        troubles that were told: ${told || "none"}`);
const said = Object.entries(count).map(([what, times]) => `${times} ${what}`);
console.log(`${said.join(", ")}: ${differences.length} differences`);
process.exit(differences.length === 0 ? 0 : 1);
