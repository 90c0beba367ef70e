// The lines of browsers: what each is, and the refusals that the gateway gives itself. Their numbers are the protocol's, but for 60.

export const MOST_LINE = 65_536; // bytes of a line without its end
export const MOST_CARET = 512; // of a line of presence
export const PROBE = 2 ** 53 - 1; // the base of an edit that is never taken: it asks which numbers are used

const MOST_UNITS = 2 ** 32 - 1; // that a place of a caret may be
const DOC = /^[A-Za-z0-9._-]{1,64}$/;
const SOURCE = /^[A-Za-z0-9._-]{1,32}$/;

const isText = (value) => typeof value === "string";
const isRevision = (value) => Number.isSafeInteger(value) && value >= 0;
const isNumber = (value) => isRevision(value) && value > 0;
const isPlace = (value) => isRevision(value) && value <= MOST_UNITS;
const isCaret = (value) => value === null || (Array.isArray(value) && value.length === 2 && value.every(isPlace));

// The members of each message, and what each has to be.
const MEMBERS = {
  hello: { source: isText },
  create: { doc: isText, n: isNumber, ops: Array.isArray },
  edit: { doc: isText, n: isNumber, base: isRevision, ops: Array.isArray },
  undo: { doc: isText, n: isNumber },
  delete: { doc: isText, n: isNumber },
  fetch: { doc: isText, rev: isRevision },
  since: { doc: isText, rev: isRevision },
  subscribe: { doc: isText, rev: isRevision },
  unsubscribe: { doc: isText },
  lease: { doc: isText },
  presence: { at: isCaret, doc: isText, rev: isRevision },
};

/** What a message does: messages of two kinds that a store answers don't overtake each other. */
export const KIND = {
  create: "command", edit: "command", undo: "command", delete: "command",
  fetch: "fetch", unsubscribe: "fetch",
  since: "since", subscribe: "since",
  lease: "lease", presence: "presence",
};

/** The right that a message needs. A lease is for who may edit or create; whoever is followed no longer needs none. */
export const RIGHT = {
  create: "create", edit: "edit", undo: "edit", delete: "delete",
  fetch: "read", since: "read", subscribe: "read", presence: "read",
};

const refusal = (code, error) => Buffer.from(`{"code":${code},"error":"${error}"}\n`);

export const REFUSAL = {
  BadLine: refusal(1, "BadLine"),
  BadMessage: refusal(2, "BadMessage"),
  NoHello: refusal(5, "NoHello"),
  NoDocument: refusal(6, "NoDocument"),
  Exists: refusal(7, "Exists"),
  BadName: refusal(8, "BadName"),
  OldNumber: refusal(10, "OldNumber"),
  TooManySources: refusal(11, "TooManySources"),
  TooOld: refusal(13, "TooOld"),
  NothingToUndo: refusal(19, "NothingToUndo"),
  TooManyDocuments: refusal(20, "TooManyDocuments"),
  NoMemory: refusal(22, "NoMemory"),
  LineTooLong: refusal(23, "LineTooLong"),
  NotAllowed: refusal(60, "NotAllowed"),
};

/** The number of a refusal, or 0 of a line that is none. */
export function codeOf(line) {
  const text = line.latin1Slice(0, Math.min(12, line.length));
  return text.startsWith('{"code":') ? Number.parseInt(text.slice(8), 10) : 0;
}

/** The revision at the end of a reply, or NaN where it has none. */
export const revOf = (line) => Number(/"rev":(\d+)\}\n$/.exec(line.latin1Slice(Math.max(0, line.length - 32)))?.[1] ?? NaN);

/** Whether a reply to a command says that it was taken before. */
export const isAgain = (line) => line.latin1Slice(0, Math.min(160, line.length)).includes('"ok":"again"');

const decoder = new TextDecoder("utf-8", { fatal: true, ignoreBOM: true });

// A number beyond what a float holds is no JSON for the server.
function hasInfinity(value) {
  if (typeof value === "number") return !Number.isFinite(value);
  return typeof value === "object" && value !== null && Object.values(value).some(hasInfinity);
}

function parsed(line) {
  const text = decoder.decode(line);
  const value = JSON.parse(text);
  if (/\d[eE]|\d{309}/.test(text) && hasInfinity(value)) throw new SyntaxError("a number is too large");
  return value;
}

// Whether a value is an object with a known `do` and exactly the members of that, each of its kind.
function isMessage(value) {
  if (typeof value !== "object" || value === null || !isText(value.do) || !Object.hasOwn(MEMBERS, value.do)) return false;
  const members = MEMBERS[value.do];
  const names = Object.keys(value).filter((name) => name !== "do");
  const isOptional = (name) => value.do === "fetch" && name === "rev";
  return names.every((name) => Object.hasOwn(members, name) && members[name](value[name]))
    && Object.keys(members).every((name) => names.includes(name) || isOptional(name));
}

/**
 * Reads a browser's line, without its end: the message, or the refusal that comes first.
 * @param {Buffer} line
 * @param {boolean} isGreeted  whether its hello came
 * @returns {{ message?: any, refusal?: Buffer }}
 */
export function readMessage(line, isGreeted) {
  let value;
  let printed;
  try {
    value = parsed(line);
    printed = JSON.stringify(value);
  } catch {
    return { refusal: REFUSAL.BadLine };
  }
  if (!isMessage(value)) return { refusal: REFUSAL.BadMessage };
  if (value.do === "hello") {
    if (isGreeted) return { refusal: REFUSAL.BadMessage };
    return SOURCE.test(value.source) ? { message: value } : { refusal: REFUSAL.BadName };
  }
  if (!isGreeted) return { refusal: REFUSAL.NoHello };
  if (!DOC.test(value.doc)) return { refusal: REFUSAL.BadName };
  if (value.do === "presence" && printed.length > MOST_CARET) return { refusal: REFUSAL.LineTooLong };
  return { message: value };
}
