// Who is where in a document: carets of browsers, told to those alone who tell theirs. A store never hears of them.

const MOST = 100; // carets of a document
const PACE = 100; // milliseconds, at most so often a document's carets are told

const lineOf = (id, user, { at, doc, rev }) => Buffer.from(JSON.stringify({ at, doc, presence: id, rev, user }) + "\n");

/**
 * @typedef {object} Teller  a browser
 * @property {number} id
 * @property {string} shownName
 * @property {boolean} isSlow  whether it has so much to take that it gets no carets now
 * @property {(line: Buffer) => void} say
 */

/** The carets of one document. */
class Room {
  /** @type {Map<Teller, { line: Buffer, missed: Map<number, Buffer> }>} */
  #members = new Map();
  /** @type {Map<number, Buffer>} what is to be told, the newest of each */
  #fresh = new Map();
  #toldAt = 0;
  #timer;

  get isEmpty() {
    return this.#members.size === 0;
  }

  /** @param {Teller} teller @param {{ at: number[], doc: string, rev: number }} message */
  put(teller, message) {
    const line = lineOf(teller.id, teller.shownName, message);
    const member = this.#members.get(teller);
    if (member !== undefined) {
      member.line = line;
    } else {
      if (this.#members.size >= MOST) return;
      const others = [...this.#members.values()].map((other) => other.line);
      this.#members.set(teller, { line, missed: new Map() });
      if (others.length > 0) teller.say(Buffer.concat(others));
    }
    this.#tellSoon(teller.id, line);
  }

  /** @param {Teller} teller @param {{ doc: string, rev: number }} message */
  take(teller, { doc, rev }) {
    if (this.#members.delete(teller)) this.#tellSoon(teller.id, lineOf(teller.id, teller.shownName, { at: null, doc, rev }));
    if (this.isEmpty) clearTimeout(this.#timer);
  }

  #tellSoon(id, line) {
    this.#fresh.set(id, line);
    this.#timer ??= setTimeout(() => this.#tell(), Math.max(0, this.#toldAt + PACE - performance.now()));
  }

  #tell() {
    this.#timer = undefined;
    this.#toldAt = performance.now();
    const fresh = [...this.#fresh];
    this.#fresh.clear();
    const all = Buffer.concat(fresh.map(([, line]) => line));
    const told = new Set(fresh.map(([id]) => id));
    let isMissed = false;
    for (const [teller, { missed }] of this.#members) {
      if (teller.isSlow) {
        for (const [id, line] of fresh) if (id !== teller.id) missed.set(id, line);
        isMissed ||= missed.size > 0;
        continue;
      }
      if (missed.size === 0 && !told.has(teller.id)) {
        if (all.length > 0) teller.say(all);
        continue;
      }
      const lines = new Map([...missed, ...fresh]);
      lines.delete(teller.id);
      missed.clear();
      if (lines.size > 0) teller.say(Buffer.concat([...lines.values()]));
    }
    if (isMissed) this.#timer ??= setTimeout(() => this.#tell(), PACE);
  }
}

export class Presence {
  /** @type {Map<string, Room>} */
  #rooms = new Map();
  /** @type {Map<Teller, Map<string, number>>} in which documents it is, at which revision */
  #places = new Map();

  /**
   * A browser told where it is.
   * @param {Teller} teller
   * @param {{ at: number[] | null, doc: string, rev: number }} message
   */
  set(teller, message) {
    if (message.at === null) return this.#leave(teller, message);
    if (!this.#rooms.has(message.doc)) this.#rooms.set(message.doc, new Room());
    if (!this.#places.has(teller)) this.#places.set(teller, new Map());
    this.#places.get(teller).set(message.doc, message.rev);
    this.#rooms.get(message.doc).put(teller, /** @type {any} */ (message));
  }

  /** Documents in which a browser is. @param {Teller} teller @returns {string[]} */
  docsOf(teller) {
    return [...(this.#places.get(teller)?.keys() ?? [])];
  }

  /** In how many. @param {Teller} teller */
  countOf(teller) {
    return this.#places.get(teller)?.size ?? 0;
  }

  /** Whether it is in one. @param {Teller} teller @param {string} doc */
  has(teller, doc) {
    return this.#places.get(teller)?.has(doc) ?? false;
  }

  /** A browser is told nothing more of a document, and nobody of it. @param {Teller} teller @param {string} doc */
  end(teller, doc) {
    const rev = this.#places.get(teller)?.get(doc);
    if (rev !== undefined) this.#leave(teller, { doc, rev });
  }

  /** A browser is gone. @param {Teller} teller */
  depart(teller) {
    for (const [doc, rev] of this.#places.get(teller) ?? []) this.#leave(teller, { doc, rev });
    this.#places.delete(teller);
  }

  #leave(teller, { doc, rev }) {
    const room = this.#rooms.get(doc);
    room?.take(teller, { doc, rev });
    if (room?.isEmpty) this.#rooms.delete(doc);
    this.#places.get(teller)?.delete(doc);
  }
}
