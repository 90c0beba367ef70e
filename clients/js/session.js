// One session: a link, the lines that go over it, and the replies in the order of the messages.

import { Refusal, RichdError } from "./errors.js";
import { Heartbeat } from "./heartbeat.js";
import { LineReader, isReplyTo, readLine } from "./lines.js";
import { openLink } from "./links.js";
import { MAX_LINE } from "./operations.js";

/**
 * @typedef {object} Message  a line that is sent: its kind, and the members that this kind has
 * @property {string} do
 * @property {string} [source]
 * @property {string} [doc]
 * @property {number} [n]
 * @property {number} [base]
 * @property {number} [rev]
 * @property {import("./delta.js").Op[]} [ops]
 * @property {[number, number] | null} [at]
 *
 * @typedef {object} Reply  a line that comes, with the members that its kind has
 * @property {string} [doc]
 * @property {number} [n]
 * @property {string} [ok]
 * @property {number} [rev]
 * @property {import("./delta.js").Op[]} [ops]
 * @property {import("./delta.js").Op[][]} [deltas]
 * @property {number} [news]
 * @property {number} [ended]
 * @property {number} [code]
 * @property {string} [error]
 * @property {number} [gateway]
 * @property {string} [lease]
 * @property {number} [epoch]
 * @property {number} [presence]
 * @property {[number, number] | null} [at]
 * @property {string} [user]
 *
 * @callback Settle  is called once for each message, in their order, before any later line is read
 * @param {RichdError | null} error
 * @param {any} [reply]
 */

/** A message that changes nothing: it is of no document. @type {Message} */
const NOTHING = { do: "unsubscribe", doc: "-" };

export class Session {
  /** @type {import("./links.js").Link} */
  #link;
  #reader = new LineReader();
  /** @type {{ message: Message, settle: Settle }[]} */
  #waiting = [];
  /** @type {Heartbeat} */
  #heartbeat;
  /** @type {{ onNews: (line: Reply) => void, onPresence: (line: Reply) => void, onEnd: (cause?: Error) => void }} */
  #listener;
  #source;
  #isGateway = false;
  #isEnding = false;
  #hasEnded = false;
  /** @type {Error | undefined} */
  #cause; // of its end
  #lines = 0; // that came
  /** @type {() => void} */
  #end;

  /** @type {Promise<void>} when the session has ended */
  ended = new Promise((resolve) => (this.#end = resolve));

  /** @param {string} source */
  constructor(source) {
    this.#source = source;
  }

  /**
   * Opens a link, and says hello.
   * @param {import("./links.js").Address} address
   * @param {string} source
   * @param {object} options
   * @param {(line: Reply) => void} options.onNews  is called with each line of news
   * @param {(line: Reply) => void} options.onPresence  is called with each line of somebody's presence
   * @param {(cause?: Error) => void} options.onEnd  is called when the session ends that was begun
   * @param {number} options.patience  after so many milliseconds in which nothing came the session is cut; after half of them it asks
   * @param {AbortSignal} [options.signal]  cuts the session while it begins
   */
  static async begin(address, source, { onNews, onPresence, onEnd, patience, signal }) {
    const session = new Session(source);
    session.#listener = { onNews, onPresence, onEnd: () => {} };
    const listener = {
      onBytes: (/** @type {Uint8Array} */ bytes) => session.#read(bytes),
      onClose: (/** @type {Error | undefined} */ cause) => session.#close(cause),
    };
    const link = await openLink(address, listener, patience);
    session.#link = link;
    session.#heartbeat = new Heartbeat({
      patience,
      isDue: () => session.#waiting.length > 0 || session.#isEnding,
      ask: () => session.send(NOTHING, () => {}),
      giveUp: () => session.cut(),
    });
    if (session.#hasEnded) session.#heartbeat.end();
    const cut = () => link.cut();
    signal?.addEventListener("abort", cut);
    if (signal?.aborted) cut();
    try {
      const { gateway } = await new Promise((resolve, reject) => {
        session.send({ do: "hello", source }, (error, reply) => (error ? reject(error) : resolve(reply)));
      });
      session.#isGateway = gateway !== undefined;
    } catch (error) {
      link.cut();
      throw error;
    } finally {
      signal?.removeEventListener("abort", cut);
    }
    if (session.#hasEnded) throw new RichdError(0, "Cut", session.#cause);
    session.#listener.onEnd = onEnd;
    return session;
  }

  /** The name that it began with. */
  get source() {
    return this.#source;
  }

  /** Whether it is one of a gateway, which lends names and tells who is present. */
  get isGateway() {
    return this.#isGateway;
  }

  /** Whether more came than the greeting. */
  get hasServed() {
    return this.#lines > 1;
  }

  /**
   * Sends a message. What it comes to is told to `settle`: a reply, a refusal, or "Cut" where the session ended before. A line that
   * no server takes isn't sent, and is refused at once.
   * @param {Message} message
   * @param {Settle} settle
   */
  send(message, settle) {
    const line = new TextEncoder().encode(JSON.stringify(message) + "\n");
    if (this.#hasEnded) return settle(new RichdError(0, "Cut"));
    if (line.length > MAX_LINE + 1) return settle(new RichdError(Refusal.LineTooLong, "LineTooLong"));
    if (this.#waiting.length === 0 && message !== NOTHING) this.#heartbeat.begin();
    this.#waiting.push({ message, settle });
    this.#link.send(line);
  }

  /** Asks whether the other end is there, and cuts the session where it doesn't answer soon. */
  check() {
    this.#heartbeat.check();
  }

  /** Ends the session once all that was sent is answered. */
  end() {
    this.#isEnding = true;
    this.#heartbeat.begin();
    this.#endLink();
  }

  /** Ends the session at once. */
  cut() {
    this.#link.cut();
    this.#close();
  }

  /** @param {Uint8Array} bytes */
  #read(bytes) {
    if (this.#hasEnded) return;
    this.#heartbeat?.begin();
    const lines = this.#reader.read(bytes);
    if (lines === undefined) return this.cut();
    for (const line of lines) this.#take(line);
  }

  // Takes a line. One that no server says here ends the session.
  /** @param {string} text */
  #take(text) {
    if (this.#hasEnded) return;
    const line = readLine(text);
    if (line === undefined) return this.cut();
    if (line.news !== undefined || line.ended !== undefined) {
      this.#lines += 1;
      return this.#listener.onNews(line);
    }
    if (line.presence !== undefined) return this.#isGateway ? this.#listener.onPresence(line) : this.cut();
    const { message, settle } = this.#waiting[0] ?? {};
    if (message === undefined || (line.code === undefined && !isReplyTo(line, message))) return this.cut();
    this.#lines += 1;
    this.#waiting.shift();
    if (line.code !== undefined) settle(new RichdError(line.code, line.error));
    else settle(null, line);
    this.#endLink();
  }

  #endLink() {
    if (!this.#hasEnded && this.#waiting.length === 0 && this.#isEnding) this.#link.end();
  }

  /** @param {Error} [cause] */
  #close(cause) {
    if (this.#hasEnded) return;
    this.#hasEnded = true;
    this.#cause = cause;
    this.#heartbeat?.end();
    for (const { settle } of this.#waiting.splice(0)) settle(new RichdError(0, "Cut", cause));
    this.#end();
    this.#listener.onEnd(cause);
  }
}
