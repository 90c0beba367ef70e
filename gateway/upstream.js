// A session of a store: lines go out, replies come back in their order. It is begun again after a cut. Reads that had no reply are asked again
// then, in their order, as long as their asker wants them. A command that was sent is never sent again from here: whoever sent it is told.
//
// What comes is judged before it is passed on. A line that no store would send ends the session, as a cut does, and the read that it answers is
// to be sent again. A line that is longer than its asker takes is never held: he gets what stands for it, and the rest is dropped; or he gets it in
// pieces as they come.

import net from "node:net";
import { REFUSAL, codeOf } from "./messages.js";
import { beginsDocument, endsDocument, isNews, isReply } from "./replies.js";

const NEWS = /^\{"doc":"([^"]+)","(news|ended)":(\d+)/;
const HELLO = { do: "hello" };
const NOTHING = { do: "unsubscribe", doc: "-" }; // changes nothing, and is answered
const FIRST_PAUSE = 50; // milliseconds until a session is begun again; it is doubled each time
const LONGEST_PAUSE = 2_000;
const IDLE = 15_000; // after so many milliseconds without a line it asks whether the store is there
const PATIENCE = 60_000; // and so long it waits for any line

const SWEEP = 500; // lines that wait for a session; then those that nobody wants any more are dropped
const SHORT = 1_024; // bytes of a reply to which no operations belong
const MOST_DROPPED = 1 << 24; // bytes of a line's rest; then the session is begun again
const SHOWN = 80; // characters of garbage that are logged
const TAIL = 160; // bytes at the end of a document that is passed on, by which it is judged
const NOTHING_YET = Buffer.alloc(0);

/**
 * @typedef {object} Ask  something that may be asked again
 * @property {any} message
 * @property {string} line
 * @property {(line: any) => void} settle
 * @property {() => boolean} wanted  whether it is still to be sent
 * @property {number} most  bytes of its reply
 * @property {Buffer} [instead]  of a reply that is longer
 * @property {(bytes: Buffer) => void} [pass]  gets a document that is longer in pieces. `settle` gets its last bytes then, or null where it is cut short
 */

/** A command: it is sent once at most. */
export class Command {
  isSent = false;
  isWanted = true;
  most = SHORT;

  /**
   * @param {any} message
   * @param {(line: Buffer | null | undefined) => void} settle  is called once with the reply; with null where the session was cut after it was sent,
   *     with undefined where it wasn't sent as nobody wanted it any more
   */
  constructor(message, settle) {
    this.message = message;
    this.line = JSON.stringify(message) + "\n";
    this.settle = settle;
  }

  wanted = () => this.isWanted;
}

export class Upstream {
  #address;
  #hello;
  #listener;
  /** @type {net.Socket | undefined} */
  #socket;
  #isOpen = false;
  /** @type {Buffer[]} */
  #part = [];
  #partBytes = 0;
  #most = SHORT; // bytes that the line may have, as far as is known
  #dropped = -1; // bytes of the rest of a line that is too long, or -1
  /** @type {Ask | undefined} whose reply is passed on in pieces just now */
  #passed;
  #tail = NOTHING_YET;
  #isPaused = false;
  /** @type {(Ask | Command)[]} */
  #waiting = [];
  #pause = FIRST_PAUSE;
  #isEnded = false;
  #isGreeted = false;
  #silentSince = performance.now();
  #sweepAt = SWEEP;
  #timer;
  #again;

  /**
   * @param {{ host: string, port: number }} address
   * @param {string} source
   * @param {{ onNews?: (doc: string, rev: number | null, line: Buffer) => void, onBegin?: () => void, onOpen?: () => void, onCut?: () => void,
   *   onIdle?: () => void, onGarbage?: (what: string) => void, onFault?: (error: Error) => void, mostNews?: number,
   *   onLong?: (doc: string) => void }} [listener]  `mostNews` bytes of a line of news
   */
  constructor(address, source, listener = {}) {
    this.#address = address;
    this.#hello = JSON.stringify({ do: "hello", source }) + "\n";
    this.#listener = listener;
    this.#begin();
    this.#timer = setInterval(() => this.#look(), IDLE / 3);
    this.#timer.unref();
  }

  get isOpen() {
    return this.#isOpen;
  }

  /** Whether nothing was asked that has no reply. */
  get isIdle() {
    return this.#waiting.length === 0;
  }

  /**
   * Asks something that may be asked again.
   * @param {any} message
   * @param {(line: Buffer) => void} settle
   * @param {() => boolean} [wanted]
   * @param {{ most?: number, instead?: Buffer, pass?: (bytes: Buffer) => void }} [bound]  bytes of the reply, and what is given instead of one that
   *     has more, or who gets it in pieces
   */
  ask(message, settle, wanted = () => true, { most = SHORT, instead, pass } = {}) {
    this.#add({ message, line: JSON.stringify(message) + "\n", settle, wanted, most, instead, pass });
  }

  /** Reads nothing for a while, as what is passed on isn't taken. */
  pause() {
    this.#isPaused = true;
    this.#socket.pause();
  }

  resume() {
    this.#isPaused = false;
    this.#silentSince = performance.now();
    this.#socket.resume();
  }

  /** Sends a command. @param {Command} command */
  command(command) {
    this.#add(command);
  }

  /** Ends it. What has no reply gets none. */
  end() {
    this.#isEnded = true;
    clearInterval(this.#timer);
    clearTimeout(this.#again);
    this.#socket.end();
    setTimeout(() => this.#socket.destroy(), 1_000).unref();
  }

  #add(item) {
    this.#waiting.push(item);
    if (this.#isOpen) this.#send(item);
    else if (this.#waiting.length > this.#sweepAt) this.#sweep();
  }

  // Drops what nobody wants any more. None of it was sent in this session.
  #sweep() {
    const dropped = this.#waiting.filter(({ wanted }) => !wanted());
    this.#waiting = this.#waiting.filter(({ wanted }) => wanted());
    this.#sweepAt = 2 * this.#waiting.length + SWEEP;
    for (const item of dropped) item.settle(item instanceof Command ? undefined : REFUSAL.NoMemory); // whoever asked counts on it
  }

  #send(item) {
    if (item instanceof Command) item.isSent = true;
    if (this.#waiting.length === 1) this.#silentSince = performance.now();
    this.#socket.write(item.line);
  }

  #begin() {
    this.#isGreeted = false;
    const socket = net.connect({ ...this.#address, noDelay: true });
    this.#socket = socket;
    this.#emptyPart();
    this.#silentSince = performance.now();
    socket.on("error", () => {}); // its close follows
    socket.on("connect", () => socket.write(this.#hello));
    socket.on("data", (bytes) => {
      if (socket.destroyed) return;
      this.#silentSince = performance.now();
      try {
        this.#read(bytes, socket);
      } catch (error) {
        this.#listener.onFault?.(error);
        socket.destroy();
      }
    });
    socket.on("close", () => this.#close());
  }

  #read(bytes, socket) {
    let from = 0;
    for (let at; (at = bytes.indexOf(10, from)) !== -1; from = at + 1) {
      if (this.#passed !== undefined) {
        this.#pass(bytes.subarray(from, at + 1));
        if (socket.destroyed) return;
        continue;
      }
      const isHeld = this.#dropped < 0 && this.#addPart(bytes.subarray(from, at + 1));
      const line = this.#part.length === 1 ? this.#part[0] : Buffer.concat(this.#part);
      if (socket.destroyed) return;
      this.#emptyPart();
      if (isHeld) this.#line(line);
      if (socket.destroyed) return;
    }
    if (from === bytes.length) return;
    if (this.#passed !== undefined) return this.#pass(bytes.subarray(from));
    if (this.#dropped < 0) return void this.#addPart(bytes.subarray(from));
    this.#dropped += bytes.length - from;
    if (this.#dropped > MOST_DROPPED) socket.destroy();
  }

  #emptyPart() {
    this.#part = [];
    this.#partBytes = 0;
    this.#most = SHORT;
    this.#dropped = -1;
  }

  // Adds a piece of a line, and gives whether that is still held. One that gets longer than its asker takes is answered in its place, and dropped.
  #addPart(bytes) {
    this.#part.push(bytes);
    this.#partBytes += bytes.length;
    if (this.#partBytes <= this.#most) return true;
    const head = Buffer.concat(this.#part.map((part) => part.subarray(0, SHORT)).slice(0, SHORT)).subarray(0, SHORT);
    const news = this.#isGreeted ? NEWS.exec(head.latin1Slice(0, Math.min(100, head.length))) : null;
    const { mostNews = 0, onNews, onLong } = this.#listener;
    const isNewsLine = news !== null && onNews !== undefined;
    const asked = this.#isGreeted ? this.#waiting[0] : undefined;
    this.#most = Math.max(SHORT, isNewsLine ? mostNews : (asked?.most ?? 0));
    if (this.#partBytes <= this.#most) return true;
    if (!isNewsLine && asked?.pass !== undefined && beginsDocument(head, asked.message)) {
      this.#passed = asked;
      this.#tail = NOTHING_YET;
      const all = Buffer.concat(this.#part);
      this.#part = [];
      this.#pass(all);
      return false;
    }
    if (isNewsLine ? onLong === undefined : asked?.instead === undefined) this.#garbage(head);
    else {
      this.#part = [];
      this.#dropped = 0;
      if (isNewsLine) onLong(news[1]);
      else this.#settle(asked, asked.instead);
    }
    return false;
  }

  // Passes a piece of a document on, and judges that by its end once it is there.
  #pass(bytes) {
    const asked = this.#passed;
    this.#tail = Buffer.concat([this.#tail, bytes.subarray(-TAIL)]).subarray(-TAIL);
    if (bytes.at(-1) !== 10) return asked.pass(bytes);
    if (!endsDocument(this.#tail)) return this.#garbage(this.#tail);
    this.#passed = undefined;
    this.#emptyPart();
    this.#pause = FIRST_PAUSE;
    this.#settle(asked, bytes);
  }

  #line(line) {
    if (this.#isGreeted) return this.#take(line);
    if (!isReply(line, HELLO)) return this.#garbage(line);
    if (codeOf(line) !== 0) return this.#socket.destroy(); // no memory for a session
    this.#isGreeted = true;
    this.#open();
  }

  // What no store sends: whoever asked is told, and the session is begun again.
  #garbage(bytes) {
    this.#listener.onGarbage?.(bytes.latin1Slice(0, Math.min(SHOWN, bytes.length)));
    this.#socket.destroy();
    if (this.#passed !== undefined) return; // it is told as the session closes
    const [asked] = this.#waiting;
    if (!this.#isOpen || asked === undefined || asked instanceof Command) return; // a command is told as the session closes
    this.#settle(asked, REFUSAL.NoMemory);
  }

  #open() {
    this.#sweep();
    this.#listener.onBegin?.(); // what it asks stands behind what waits
    for (const item of this.#waiting) this.#send(item);
    this.#isOpen = true;
    this.#listener.onOpen?.();
    this.#tellIdle();
  }

  #close() {
    const wasOpen = this.#isOpen;
    this.#isOpen = false;
    const isCut = (item) => item instanceof Command && item.isSent;
    const cut = this.#waiting.filter(isCut);
    this.#waiting = this.#waiting.filter((item) => !isCut(item));
    const passed = this.#passed;
    if (passed !== undefined) this.#waiting.shift();
    this.#passed = undefined;
    this.#isPaused = false;
    if (!this.#isEnded) {
      this.#again = setTimeout(() => this.#begin(), this.#pause);
      this.#pause = Math.min(this.#pause * 2, LONGEST_PAUSE);
      if (wasOpen) this.#listener.onCut?.();
    }
    for (const { settle } of cut) settle(null);
    passed?.settle(null);
    this.#tellIdle();
  }

  #take(line) {
    const found = NEWS.exec(line.latin1Slice(0, Math.min(100, line.length)));
    if (found !== null && this.#listener.onNews !== undefined) {
      if (!isNews(line, found)) return this.#garbage(line);
      this.#pause = FIRST_PAUSE;
      return this.#listener.onNews(found[1], found[2] === "news" ? Number(found[3]) : null, line);
    }
    const [asked] = this.#waiting;
    if (asked === undefined || !isReply(line, asked.message)) return this.#garbage(line);
    this.#pause = FIRST_PAUSE;
    this.#settle(asked, line);
  }

  #settle(asked, line) {
    this.#waiting.shift();
    asked.settle(line);
    this.#tellIdle();
  }

  #tellIdle() {
    if (this.#waiting.length === 0) this.#listener.onIdle?.();
  }

  // A store that is gone without a word is found by its silence.
  #look() {
    if (this.#isPaused) return;
    const silent = performance.now() - this.#silentSince;
    const isDue = !this.#isOpen || this.#waiting.length > 0;
    if (isDue && silent > PATIENCE) this.#socket.destroy();
    else if (!isDue && silent > IDLE) this.ask(NOTHING, () => {});
  }
}
