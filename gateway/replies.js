// What a store may answer. Of a long document, and of long news, only what stands at both ends is looked at; all other lines are parsed.

const PARSED = 65_536; // bytes up to which a line is parsed, to see that it is JSON
const TAIL = 160; // bytes, more than stand behind the operations
const REFUSED = /^\{"code":[1-9]\d{0,2},"error":"\w+"\}\n$/;
const TAKEN = /^"(taken|again)","rev":\d{1,16}\}\n$/;
const SHORT = 256; // bytes, more than a reply to a command has

const headOf = (line, length) => line.latin1Slice(0, Math.min(length, line.length));
const tailOf = (line) => line.latin1Slice(Math.max(0, line.length - TAIL));

function parsed(line) {
  try {
    return JSON.parse(line.toString());
  } catch {
    return undefined;
  }
}

const isJson = (line) => line.length > PARSED || parsed(line) !== undefined;

/** Whether what came after a revision has a change for each revision. */
function isComplete(line, told) {
  const { deltas, rev } = parsed(line) ?? {};
  return Array.isArray(deltas) && deltas.length === rev - told;
}

/** Whether a line is the one text, or ends by a revision behind it. */
const isWhole = (line, text) => line.length <= TAIL && line.latin1Slice(0, line.length) === text;
const endsBy = (line, text) => /(\d{1,16})\}\n$/.test(tailOf(line)) && tailOf(line).replace(/\d{1,16}\}\n$/, "").endsWith(text);
const begins = (line, text) => headOf(line, text.length) === text;

/** Whether a line begins as a document does that was fetched. @param {Buffer} head @param {{ doc: string }} message */
export const beginsDocument = (head, { doc }) => begins(head, `{"doc":"${doc}","ok":"doc","ops":[`);

/** Whether a line ends as a document does. @param {Buffer} tail  with its end */
export const endsDocument = (tail) => endsBy(tail, '],"rev":');

/**
 * Whether a line is a reply to a message: a refusal, or what a store answers where it refuses nothing.
 * @param {Buffer} line  with its end
 * @param {any} message
 */
export function isReply(line, { do: what, doc, n, rev }) {
  if (begins(line, '{"code":')) return line.length <= TAIL && REFUSED.test(headOf(line, TAIL));
  if (what === "hello") return isWhole(line, '{"ok":"hello"}\n');
  if (what === "fetch") return beginsDocument(line, { doc }) && endsDocument(line) && isJson(line);
  if (what === "since") return begins(line, '{"deltas":[') && endsBy(line, `],"doc":"${doc}","ok":"since","rev":`) && isComplete(line, rev);
  if (what === "subscribe") return isWhole(line, `{"doc":"${doc}","ok":"subscribed","rev":${rev}}\n`);
  if (what === "unsubscribe") return isWhole(line, `{"doc":"${doc}","ok":"unsubscribed"}\n`);
  const head = `{"doc":"${doc}","n":${n},"ok":`;
  return begins(line, head) && TAKEN.test(headOf(line, SHORT).slice(head.length));
}

/**
 * Whether a line that begins as news does is news to its end.
 * @param {Buffer} line
 * @param {RegExpExecArray} found  its beginning: the document, the kind, a number
 */
export function isNews(line, [, doc, kind, number]) {
  if (kind === "ended") return isWhole(line, `{"doc":"${doc}","ended":${number}}\n`);
  return begins(line, `{"doc":"${doc}","news":${number},"ops":[`) && tailOf(line).endsWith("]}\n") && isJson(line);
}
