// What is counted, in the text form of Prometheus.

const MOST = 10_000; // of the last times that quantiles are of

// Limits above which a session isn't read, and is closed later.
const OVER = ["Messages", "Bytes", "Overhead", "Reading", "Documents"].flatMap((limit) => [`user${limit}`, `address${limit}`]);

// What befalls a gateway seldom, with the labels that stand there from the start.
const COUNTED = [
  ["garbage_total", [{ from: "store" }, { from: "etcd" }]],
  ["faults_total", [{}]],
  ["unwritten_total", [{}]],
  ["overfull_total", [{}]],
  ["name_waits_total", [{}]],
  ["recalled_total", [{}]],
  ["pages_refused_total", [{}]],
  ["rights_ended_total", [{}]],
  ["swept_total", [{}]],
  ["passed_total", [{}]],
  ["slowed_total", OVER.map((limit) => ({ limit }))],
  ["over_total", [...OVER, "addressSessions", "addressUnsigned"].map((limit) => ({ limit }))],
  ["creations_refused_total", ["all", "hour"].map((limit) => ({ limit }))],
];

const labelled = (labels) => {
  const all = Object.entries(labels).map(([name, value]) => `${name}="${value}"`);
  return all.length === 0 ? "" : `{${all.join(",")}}`;
};

/** Times in milliseconds: their quantiles, count and sum. */
class Times {
  #last = [];
  count = 0;
  sum = 0;

  /** @param {number} milliseconds */
  add(milliseconds) {
    this.#last[this.count % MOST] = milliseconds;
    this.count += 1;
    this.sum += milliseconds;
  }

  /** @param {string} name */
  lines(name) {
    const sorted = [...this.#last].sort((one, other) => one - other);
    const at = (part) => (sorted[Math.floor(sorted.length * part)] ?? 0).toFixed(3);
    const quantiles = [0.5, 0.9, 0.99].map((part) => `${name}{quantile="${part}"} ${at(part)}`);
    return [`# TYPE ${name} summary`, ...quantiles, `${name}_sum ${this.sum.toFixed(3)}`, `${name}_count ${this.count}`];
  }
}

export class Metrics {
  commands = { taken: 0, again: 0, refused: 0 };
  /** @type {Map<number, number>} */
  refusals = new Map();
  news = 0;
  replies = new Times();
  lag = new Times();
  lent = { 1: 0, more: 0 };
  cuts = 0;
  stale = 0;
  slow = 0;

  /** @type {Map<string, Map<string, number>>} what -> labels -> how often */
  #counts = new Map(COUNTED.map(([what, all]) => [what, new Map(all.map((labels) => [labelled(labels), 0]))]));

  /**
   * Counts something that is in COUNTED.
   * @param {string} what
   * @param {Record<string, string>} [labels]
   * @param {number} [by]
   */
  count(what, labels = {}, by = 1) {
    const counts = this.#counts.get(what);
    const key = labelled(labels);
    counts.set(key, (counts.get(key) ?? 0) + by);
  }

  /** @param {number} code  of a line that a browser got, 0 where it is no refusal */
  refused(code) {
    if (code !== 0) this.refusals.set(code, (this.refusals.get(code) ?? 0) + 1);
  }

  /**
   * @param {{ sessions: number, waiting: number, kept: number, stores: Iterable<{ name: string, open: Record<string, number> }> }} now
   * @returns {string}
   */
  text({ sessions, stores, waiting, kept }) {
    const name = (it) => `richd_gateway_${it}`;
    const counter = (it, values) => [`# TYPE ${name(it)} counter`, ...values.map(([labels, value]) => `${name(it)}${labels} ${value}`)];
    const open = [...stores].flatMap((store) => Object.entries(store.open).map(([kind, count]) => `${name("store_sessions")}{store="${store.name}",kind="${kind}"} ${count}`));
    const { user, system } = process.cpuUsage();
    return [
      `# TYPE ${name("sessions")} gauge`, `${name("sessions")} ${sessions}`,
      `# TYPE ${name("waiting_bytes")} gauge`, `${name("waiting_bytes")} ${waiting}`,
      `# TYPE ${name("kept_bytes")} gauge`, `${name("kept_bytes")} ${kept}`,
      `# TYPE ${name("store_sessions")} gauge`, ...open,
      ...counter("commands_total", Object.entries(this.commands).map(([result, count]) => [`{result="${result}"}`, count])),
      ...counter("refusals_total", [...this.refusals].map(([code, count]) => [`{code="${code}"}`, count])),
      ...counter("news_total", [["", this.news]]),
      ...this.replies.lines(name("reply_milliseconds")),
      ...this.lag.lines(name("news_lag_milliseconds")),
      ...counter("leases_lent_total", Object.entries(this.lent).map(([epoch, count]) => [`{epoch="${epoch}"}`, count])),
      ...counter("cuts_total", [["", this.cuts]]),
      ...counter("stale_total", [["", this.stale]]),
      ...counter("slow_total", [["", this.slow]]),
      ...[...this.#counts].flatMap(([what, counts]) => counter(what, [...counts])),
      "# TYPE process_resident_memory_bytes gauge", `process_resident_memory_bytes ${process.memoryUsage().rss}`,
      "# TYPE process_cpu_seconds_total counter", `process_cpu_seconds_total ${((user + system) / 1e6).toFixed(3)}`,
    ].join("\n") + "\n";
  }
}
