// What the browsers of one process saw.

const MOST_DIFFERENCES = 20; // that are told

export class Report {
  counts = {};
  /** @type {string[]} */
  differences = [];
  /** @type {Record<string, { reply: number[], seen: number[], news: number }>} */
  times = {};
  #phase = "before";
  #apart = new Set();
  #typed = new Map(); // doc and letter -> when it was typed
  #lines = new Map(); // doc -> revision -> the line that told it

  /** From now on times count for another phase, those of some documents apart. */
  begin(phase, apart = []) {
    this.#phase = phase;
    this.#apart = new Set(apart);
  }

  phaseOf(doc) {
    return this.#apart.has(doc) ? `${this.#phase}, there` : this.#phase;
  }

  add(phase, kind, milliseconds) {
    this.#of(phase)[kind].push(Number(milliseconds.toFixed(1)));
  }

  count(what) {
    this.counts[what] = (this.counts[what] ?? 0) + 1;
  }

  differ(what) {
    if (this.differences.length < MOST_DIFFERENCES) this.differences.push(what);
  }

  typed(doc, letter, now) {
    this.#typed.set(doc + letter, now);
  }

  /** A follower was told a revision: all are told the same. */
  told(doc, rev, line, isWitness) {
    const phase = this.phaseOf(doc);
    this.#of(phase).news += 1;
    if (!this.#lines.has(doc)) this.#lines.set(doc, new Map());
    const lines = this.#lines.get(doc);
    const before = lines.get(rev);
    if (before === undefined) lines.set(rev, line);
    else if (before !== line) this.differ(`${doc}: revision ${rev} is told as ${before} and as ${line}`);
    if (!isWitness) return;
    const letter = JSON.parse(line).ops.find(({ insert }) => typeof insert === "string" && insert.length === 1)?.insert;
    const began = this.#typed.get(doc + letter);
    if (began !== undefined) this.add(phase, "seen", performance.now() - began);
  }

  #of(phase) {
    return (this.times[phase] ??= { reply: [], seen: [], news: 0 });
  }
}
