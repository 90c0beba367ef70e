// Who is signed in, and how much he and his address may do at once.

const HOUR = 3_600; // seconds
const PIECES = 1 << 17; // bytes: a line may come in pieces, which count until it is whole
const READING = { user: 5_000, address: 60_000 }; // milliseconds of a session's time that reads may take at once, as where all begin to follow again
const GAP = 1_000; // milliseconds; who isn't held again within them has kept to his limits
export const MOST_OWED = 10; // seconds that a session isn't read; where it would be more it is closed
const MOST_NAME = 64; // characters of a name that others see

/** So much a second, and so much at once. Who takes more owes it. */
export class Allowance {
  #perSecond;
  #most;
  #left;
  #now;
  #countedAt;

  /** @param {number} perSecond @param {number} [atOnce] @param {() => number} [now] */
  constructor(perSecond, atOnce = perSecond, now = () => performance.now()) {
    this.#now = now;
    this.#countedAt = now();
    this.#perSecond = perSecond;
    this.#most = this.#left = atOnce;
  }

  /** @param {number} amount  that is taken, or given back */
  take(amount) {
    this.#count();
    this.#left = Math.min(this.#most, this.#left - amount);
  }

  /** Takes one where there is one. */
  takesOne() {
    this.#count();
    if (this.#left < 1) return false;
    this.#left -= 1;
    return true;
  }

  get isEmpty() {
    this.#count();
    return this.#left < 1;
  }

  /** Seconds until nothing is owed. */
  get owed() {
    this.#count();
    return Math.max(0, -this.#left / this.#perSecond);
  }

  #count() {
    const now = this.#now();
    this.#left = Math.min(this.#most, this.#left + ((now - this.#countedAt) / 1_000) * this.#perSecond);
    this.#countedAt = now;
  }
}

/**
 * What the sessions of a user, or of an address, take together. Whose limit is passed isn't read; where that goes on for long the session that sends
 * most is closed.
 */
export class Account {
  /** @type {Set<import("./browser.js").Browser>} */
  browsers = new Set();
  documents = 0; // that its sessions are told of, or ask to be
  #of;
  #now;
  #heldSince = -Infinity;
  #heldUntil = -Infinity;

  /**
   * @param {"user" | "address"} of  how the names of its limits begin
   * @param {Record<string, number>} limits
   * @param {() => number} [now]
   */
  constructor(of, limits, now = () => performance.now()) {
    this.#of = of;
    this.#now = now;
    this.patience = 1_000 * limits.heldSeconds; // milliseconds that it may be above a limit without an end
    this.messages = new Allowance(limits[`${of}Messages`], undefined, now);
    this.bytes = new Allowance(limits[`${of}Bytes`], undefined, now);
    this.overhead = new Allowance(limits[`${of}Overhead`], limits[`${of}Overhead`] + PIECES, now);
    this.reading = new Allowance(limits[`${of}Reading`], READING[of], now);
    this.mostDocuments = limits[`${of}Documents`];
  }

  /** Bytes have come. Those of a line that is whole are given back to what is no line. */
  weigh(bytes) {
    this.bytes.take(bytes);
    this.overhead.take(bytes);
  }

  /** What it owes most of what pauses its sessions: by which limit, and how many seconds. */
  get debt() {
    const [bytes, overhead] = [this.bytes.owed, this.overhead.owed];
    return bytes > overhead ? { limit: "Bytes", seconds: bytes } : { limit: "Overhead", seconds: overhead };
  }

  /** Whether it owes so much that it isn't let in again. */
  get owesMuch() {
    return this.debt.seconds > MOST_OWED;
  }

  /** Whether nothing is owed. */
  get isEven() {
    return this.debt.seconds === 0 && this.reading.owed === 0;
  }

  /** The name of one of its limits in the settings. @param {string} limit */
  nameOf(limit) {
    return this.#of + limit;
  }

  /**
   * One of its sessions isn't read for so many seconds. Gives whether that has begun just now, and who is to be closed where it goes on for too long.
   * @param {number} seconds
   */
  hold(seconds) {
    const now = this.#now();
    const isFirst = now > this.#heldUntil + GAP;
    if (isFirst) this.#heldSince = now;
    this.#heldUntil = Math.max(this.#heldUntil, now + 1_000 * seconds);
    if (now - this.#heldSince < this.patience) return { isFirst };
    this.#heldSince = now;
    return { isFirst, greedy: this.greedy };
  }

  /** Its session that has sent most of late. */
  get greedy() {
    let greedy;
    for (const browser of this.browsers) if (greedy === undefined || browser.sent > greedy.sent) greedy = browser;
    return greedy;
  }
}

/** An address with a connection, or one that was here just now. */
export class Address extends Account {
  connections = 0;
  unsigned = 0; // of them, that aren't signed in

  /** @param {any} limits */
  constructor(limits) {
    super("address", limits);
  }
}

/** A user with a session at least. What `authorize` gave stands with each session: it may be another each time, as where it has an end. */
export class User extends Account {
  #most;
  #hourly;
  #making = 0; // creations on their way
  goneSince = Infinity; // he has no session any more

  /**
   * @param {string} id
   * @param {any} limits
   */
  constructor(id, limits) {
    super("user", limits);
    this.id = id;
    this.#most = limits.userCreations;
    this.#hourly = new Allowance(limits.userCreationsHour / HOUR, limits.userCreationsHour);
  }

  /**
   * Counts a creation that is about to be sent. Gives the limit that forbids it, or nothing.
   * @param {() => Promise<number>} made  how many documents he has created
   */
  async creates(made) {
    this.#making += 1;
    try {
      if ((await made()) + this.#making <= this.#most) {
        if (this.#hourly.takesOne()) return undefined;
      }
    } catch (error) {
      this.#making -= 1;
      throw error;
    }
    this.#making -= 1;
    return this.#hourly.isEmpty ? "hour" : "all";
  }

  /** A creation has come to its end. @param {boolean} isMade  or perhaps */
  created(isMade) {
    this.#making -= 1;
    if (!isMade) this.#hourly.take(-1);
  }
}

/** @param {any} given @returns {string} */
export const idOf = (given) => (typeof given === "object" && given !== null ? given.id : given);

/** The name that others see. @param {any} given @returns {string} */
export function nameOf(given) {
  const name = typeof given === "object" && typeof given.name === "string" ? given.name : idOf(given);
  return [...name].slice(0, MOST_NAME).join("");
}
