// What a gateway is told: its settings, and why they can't be used.

import { archiveFault } from "./versions.js";

const NAME = /^[A-Za-z0-9._-]{1,12}$/;
const STORE = /^[A-Za-z0-9._-]{1,32}$/;
const SESSIONS = 64; // that a store serves
const MOST_NAMES = 4_096; // that a document has places for
const DAY = 86_400_000; // milliseconds
export const DEFAULTS = { name: "g", readers: 2, writers: 16, guests: 8, names: 120, term: 7, recall: 60, recheck: 5, pulse: 15_000 };
const MIB = 1 << 20; // bytes
export const LIMITS = {
  sessions: 20_000, userSessions: 200, addressSessions: 20_000, addressUnsigned: 1_000,
  userMessages: 2_000, userBytes: MIB, userOverhead: MIB / 64, userReading: 250, userDocuments: 1_000,
  addressMessages: 20_000, addressBytes: 64 * MIB, addressOverhead: MIB, addressReading: 800, addressDocuments: 100_000,
  heldSeconds: 30, userNames: 4, userCreations: 1_000, userCreationsHour: 100,
  lineBytes: 64 * MIB, newsBytes: 4 * MIB, waitingBytes: 256 * MIB, keptBytes: 64 * MIB,
};
// The defaults where all are one user, but for names, of which he has all.
const OF_ALL = {
  userMessages: 20_000, userBytes: 64 * MIB, userOverhead: MIB, userReading: 2 ** 31,
  userDocuments: 2 ** 31, userCreations: 2 ** 31, userCreationsHour: 2 ** 31,
};
export const HOOKS = ["authorize", "can", "onCommand", "onTaken"];
const FIELDS = [...Object.keys(DEFAULTS), "stores", "data", "etcd", "rule", "origins", "hosts", "address", "archive", "limits", ...HOOKS, "log", "hidesMetrics"];

/** Throws a reason where something doesn't hold. */
function demand(holds, reason) {
  if (!holds) throw new Error(reason);
}

const isText = (value) => typeof value === "string" && value !== "";
const isBetween = (value, least, most) => Number.isInteger(value) && value >= least && value <= most;

/** @param {any} store */
export function checkStore(store) {
  demand(typeof store === "object" && store !== null, "a store is an object with name, host and port");
  const { name, host, port } = store;
  demand(isText(name) && STORE.test(name), `a store's name has 1 to 32 characters of A-Z a-z 0-9 . _ -, and not ${JSON.stringify(name)}`);
  demand(isText(host), `store ${name}: host is missing`);
  demand(isBetween(port, 1, 65_535), `store ${name}: port is 1 to 65535, and not ${JSON.stringify(port)}`);
  demand(store.new === undefined || typeof store.new === "boolean", `store ${name}: new is true or false`);
}

function checkStores(stores) {
  demand(Array.isArray(stores) && stores.length > 0, "stores: a list of at least one store is needed");
  stores.forEach(checkStore);
  const names = stores.map(({ name }) => name);
  demand(new Set(names).size === names.length, `stores: two have the same name, of ${names.join(", ")}`);
}

function checkRule(rule, stores) {
  demand(Array.isArray(rule) && rule.length > 0, "rule: a list of { prefix, store } is needed");
  const names = stores.map(({ name }) => name);
  for (const { prefix, store } of rule) {
    demand(typeof prefix === "string", "rule: prefix is a text, empty for all names");
    demand(names.includes(store), `rule: there is no store ${JSON.stringify(store)}`);
  }
  const prefixes = rule.map(({ prefix }) => prefix);
  demand(new Set(prefixes).size === prefixes.length, "rule: a prefix stands twice");
}

function checkEtcd(etcd) {
  demand(typeof etcd === "object" && Array.isArray(etcd?.urls) && etcd.urls.length > 0 && etcd.urls.every(isText), "etcd: urls is a list of at least one URL");
  for (const url of etcd.urls) demand(/^https?:\/\/[^/]+\/?$/.test(url), `etcd: ${url} isn't http://HOST:PORT`);
  demand(etcd.prefix === undefined || isText(etcd.prefix), "etcd: prefix is a text that isn't empty");
}

function isUrl(text) {
  try {
    return Boolean(new URL(text));
  } catch {
    return false;
  }
}

/** @param {any} origins */
export function checkOrigins(origins) {
  const isOrigin = (it) => isText(it) && /^https?:\/\/[^/]+$/.test(it) && isUrl(it);
  demand(origins === undefined || (Array.isArray(origins) && origins.every(isOrigin)), "origins is a list of scheme://host[:port]");
}

/**
 * The settings of a gateway with its defaults; throws a reason where they can't be used.
 * @param {any} given
 */
export function checked(given) {
  for (const field of Object.keys(given)) demand(FIELDS.includes(field), `there is no setting ${field}`);
  for (const hook of HOOKS) demand(given[hook] === undefined || typeof given[hook] === "function", `${hook} is a function`);
  const ofAll = given.authorize === undefined ? { ...OF_ALL, userNames: given.names ?? DEFAULTS.names } : {};
  const settings = { ...DEFAULTS, ...given, limits: { ...LIMITS, ...ofAll, ...given.limits } };
  const { name, stores, readers, writers, guests, names, term, data, etcd, rule, origins, limits } = settings;
  demand(isText(name) && NAME.test(name), `name has 1 to 12 characters of A-Z a-z 0-9 . _ -, and not ${JSON.stringify(name)}`);
  checkStores(stores);
  demand(isBetween(readers, 1, 2), "readers is 1 or 2");
  demand(isBetween(writers, 1, SESSIONS), "writers is 1 to 64");
  demand(isBetween(guests, 1, SESSIONS), "guests is 1 to 64");
  const share = readers + writers + guests + 1;
  demand(share <= SESSIONS, `readers, writers, guests and one for the news are ${share} sessions, and a store has ${SESSIONS}`);
  demand(isBetween(names, writers, MOST_NAMES), `names is at least writers, which is ${writers}, and at most ${MOST_NAMES}`);
  demand(Number.isFinite(term) && term > 0, "term is a number of days above 0");
  demand(isBetween(settings.recall, 1, 2 ** 31 - 1), "recall is a whole number of seconds above 0");
  demand(isBetween(settings.recheck, 1, 2 ** 31 - 1), "recheck is a whole number of seconds above 0");
  demand(isBetween(settings.pulse, 1, 2 ** 31 - 1), "pulse is a whole number of milliseconds above 0");
  demand(etcd !== undefined || isText(data), "data: a folder of this gateway's own is needed without etcd");
  if (etcd !== undefined) checkEtcd(etcd);
  demand(etcd === undefined || rule === undefined, "rule is for a gateway without etcd: with both, a document could get two places");
  demand(etcd !== undefined || rule !== undefined || stores.length === 1, "several stores need etcd, or a rule");
  if (rule !== undefined) checkRule(rule, stores);
  checkOrigins(origins);
  const { hosts, address, archive } = settings;
  const fault = archiveFault(archive, stores.map((store) => store.name));
  demand(fault === undefined, fault);
  demand(address === undefined || isText(address?.header), "address: header is the name of a header");
  demand(hosts === undefined || (Array.isArray(hosts) && hosts.every((it) => isText(it) && /^[^/:]+$/.test(it))), "hosts is a list of names without a port");
  for (const [limit, value] of Object.entries(limits)) {
    demand(limit in LIMITS, `limits: ${limit} is none of ${Object.keys(LIMITS).join(", ")}`);
    demand(isBetween(value, 1, 2 ** 31), `limits: ${limit} is a whole number above 0`);
  }
  const { lineBytes, newsBytes, waitingBytes, keptBytes } = limits;
  demand(waitingBytes >= lineBytes && lineBytes >= newsBytes && keptBytes >= newsBytes, "limits: waitingBytes is at least lineBytes, and lineBytes and keptBytes at least newsBytes");
  return { ...settings, term: term * DAY, rule: rule ?? [{ prefix: "", store: stores[0].name }] };
}
