// A browser in which somebody types in one document, by the JavaScript client.
//
// In a plain document only letters are put in, each another one there, so that the end shows which were lost or taken twice. In the others
// letters are deleted and set bold, too.

import { connect } from "../../../clients/js/node.js";
import { webSockets } from "../../websockets.js";

const { WebSocket } = webSockets();
const FIRST = 0x4e00; // the letters of a document are those from here on
const MOST_LETTERS = 0x5000;
const LONGEST = 600_000; // milliseconds that a call may take
const MOST_AWAY = 5; // milliseconds from an edit to the reload that cuts it
const SHORT = 300; // letters of a document; above them more are deleted than put in
const random = (below) => Math.floor(Math.random() * below);

/** The letter that the typer at `place` of `among` in a document puts in as its `index`th. */
export const letterOf = (index, place, among) => String.fromCharCode(FIRST + index * among + place);

export class Typer {
  typed = 0; // letters of a plain document
  edits = 0;
  acknowledged = 0;
  /** @type {string[]} letters that were on their way when the page was loaded anew */
  unknown = [];
  #leaving;
  #isReloading = false;
  #reloadsNext = false;
  #wake = () => {};

  /**
   * @param {{ id: string, doc: string, place: number, among: number, isPlain: boolean, url: string }} who
   * @param {import("./report.js").Report} report
   */
  constructor(who, report) {
    Object.assign(this, who);
    this.report = report;
  }

  async begin() {
    const leaving = new AbortController();
    this.#leaving = leaving;
    this.client = await connect({ url: this.url, WebSocket, source: this.id, timeout: LONGEST, signal: leaving.signal });
    this.client.addEventListener("cut", () => this.report.count("sessions cut"));
    this.client.addEventListener("state", ({ state }) => state === "full" && this.report.count("full"));
    this.document = await this.client.open(this.doc, { create: [{ insert: "\n" }] });
    this.document.addEventListener("doubt", () => this.report.count("edits in doubt"));
    this.document.addEventListener("rebased", () => this.report.count("fetched anew"));
    this.document.addEventListener("trouble", ({ error, delta }) => {
      if (!leaving.signal.aborted) this.report.differ(`${this.doc}: ${this.id} lost ${JSON.stringify(delta.ops)} by ${error.message}`);
    });
  }

  /** What it typed, and what of that was acknowledged. */
  get written() {
    const { id, doc, place, among, isPlain, typed, edits, acknowledged, unknown } = this;
    return { id, doc, place, among, isPlain, typed, edits, acknowledged, unknown };
  }

  /** Types until it is told to end, an edit each `period` milliseconds or so. */
  async type(period, isOver) {
    await this.#rest(random(period));
    while (!isOver()) {
      const began = performance.now();
      const phase = this.report.phaseOf(this.doc);
      try {
        this.#act(began);
        if (this.#reloadsNext) setTimeout(() => this.#reload(), random(MOST_AWAY));
        await this.#saved();
        this.acknowledged += 1;
        this.report.add(phase, "reply", performance.now() - began);
      } catch (error) {
        if (!this.#isReloading) throw error;
        if (this.isPlain) this.unknown.push(letterOf(this.typed - 1, this.place, this.among));
        this.#isReloading = false;
        await this.begin();
      }
      await this.#rest(period / 2 + random(period) - (performance.now() - began));
    }
  }

  /** Types the next edit now. */
  hurry() {
    this.#wake();
  }

  /** Has the page loaded anew while its next edit is on its way: the session ends without a word, and the same token comes again. */
  reload() {
    this.#reloadsNext = true;
  }

  #reload() {
    if (this.document.isSaved) return; // next time
    this.#reloadsNext = false;
    this.#isReloading = true;
    this.report.count("pages loaded anew");
    this.#leaving.abort(new Error("loaded anew"));
  }

  #rest(milliseconds) {
    return new Promise((resolve) => {
      const timer = setTimeout(resolve, milliseconds);
      this.#wake = () => {
        clearTimeout(timer);
        resolve();
      };
    });
  }

  #saved() {
    const { signal } = this.#leaving;
    return new Promise((resolve, reject) => {
      const leave = () => reject(signal.reason);
      signal.addEventListener("abort", leave);
      this.document.flush().then(resolve, reject).finally(() => signal.removeEventListener("abort", leave));
    });
  }

  #act(now) {
    const { length } = this.document;
    const place = random(length);
    const retain = place > 0 ? [{ retain: place }] : [];
    this.edits += 1;
    if (this.isPlain) {
      if (this.typed * this.among >= MOST_LETTERS) throw new Error("all letters of a document are used: a shorter run, or more documents");
      const letter = letterOf(this.typed, this.place, this.among);
      this.typed += 1;
      this.report.typed(this.doc, letter, now);
      return this.document.apply([...retain, { insert: letter }]);
    }
    if (random(length) > SHORT / 2) return this.document.apply([...retain, { delete: 1 + random(Math.min(4, length - place)) }]);
    if (random(6) === 0) return this.document.apply([...retain, { retain: length - place, attributes: { bold: random(2) === 0 ? true : null } }]);
    this.document.apply([...retain, { insert: `${this.id} ` }]);
  }
}
