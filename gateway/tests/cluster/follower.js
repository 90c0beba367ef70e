// A browser that only follows a document: a bare WebSocket. Each revision has to come once and in order, over all cuts.

import { webSockets } from "../../websockets.js";

const { WebSocket } = webSockets();
const NEWS = /^\{"doc":"[^"]+","(news|ended)":(\d+)/;
const FIRST_PAUSE = 100; // milliseconds, doubled up to
const LONGEST_PAUSE = 5_000;
const [TOO_OLD, NO_MEMORY] = [13, 22];

export class Follower {
  last = 1; // revision that it was told
  socket;
  unwanted = 0; // replies that are yet to come and say nothing
  #pause = FIRST_PAUSE;
  #part = "";
  #isEnded = false;
  #onBegun;

  /**
   * @param {{ id: string, doc: string, url: string, isWitness?: boolean }} who  a witness measures how late the news come
   * @param {import("./report.js").Report} report
   */
  constructor(who, report) {
    Object.assign(this, who);
    this.report = report;
  }

  /** Connects, and gives a promise of its first subscription. */
  begin() {
    const begun = new Promise((resolve) => (this.#onBegun = resolve));
    this.#connect();
    return begun;
  }

  end() {
    this.#isEnded = true;
    this.socket.terminate();
  }

  #connect() {
    const socket = new WebSocket(this.url);
    this.socket = socket;
    this.#part = "";
    this.unwanted = 0;
    socket.on("open", () => {
      this.#pause = FIRST_PAUSE;
      this.ask({ do: "hello", source: this.id });
      this.#subscribe();
    });
    socket.on("message", (bytes) => {
      const lines = (this.#part + bytes).split("\n");
      this.#part = lines.pop();
      for (const line of lines) this.#take(line);
    });
    socket.on("error", () => {}); // its close follows
    socket.on("close", (code) => {
      if (this.#isEnded) return;
      this.report.count("sessions cut");
      if (code === 4503) this.report.count("full");
      setTimeout(() => this.#connect(), this.#pause * (0.5 + Math.random()));
      this.#pause = Math.min(2 * this.#pause, LONGEST_PAUSE);
    });
  }

  ask(message) {
    if (this.socket.readyState === WebSocket.OPEN) this.socket.send(JSON.stringify(message) + "\n");
  }

  #subscribe() {
    this.ask({ do: "subscribe", doc: this.doc, rev: this.last });
  }

  #take(line) {
    const found = NEWS.exec(line);
    if (found !== null && found[1] === "news") return this.#news(line, Number(found[2]));
    if (found !== null) return this.#fetch();
    const { ok, code, rev } = JSON.parse(line);
    if (ok === "subscribed") this.#onBegun();
    else if (code === NO_MEMORY) setTimeout(() => this.#subscribe(), FIRST_PAUSE);
    else if (code === TOO_OLD) this.#fetch();
    else if (code !== undefined) this.report.differ(`${this.doc}: ${this.id} is refused: ${line}`);
    else if (rev !== undefined && this.unwanted > 0) this.unwanted -= 1;
    else if (rev !== undefined) {
      this.last = rev;
      this.#subscribe();
    }
  }

  // What comes after its revision is held no more.
  #fetch() {
    this.report.count("fetched anew");
    this.ask({ do: "fetch", doc: this.doc });
  }

  #news(line, rev) {
    if (rev !== this.last + 1) this.report.differ(`${this.doc}: ${this.id} gets revision ${rev} after ${this.last}`);
    this.last = rev;
    this.report.told(this.doc, rev, line, this.isWitness);
  }
}

/** A browser that follows a document, asks for it again and again, and reads nothing of that until it is told to. */
export class DeafFollower extends Follower {
  async begin(times) {
    await super.begin();
    this.socket.pause();
    this.unwanted = times;
    for (let count = 0; count < times; count += 1) this.ask({ do: "fetch", doc: this.doc });
  }

  listen() {
    if (this.socket.readyState === WebSocket.OPEN) this.socket.resume();
  }
}
