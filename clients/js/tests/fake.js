// A server in the test's hands: what the real one says is fixed by its own tests, and what it says seldom can be had here.

import net from "node:net";
import { Delta } from "../delta.js";

/** Waits until something holds. */
export async function until(holds) {
  while (!holds()) await new Promise((resolve) => setTimeout(resolve, 5));
}

/**
 * Listens on a free port, and calls `onLine` with each message and its session. A session has `reply`, `say`, and `cut`.
 * @param {(message: any, session: any, sessions: any[]) => void} onLine
 */
export async function scripted(onLine) {
  const sessions = [];
  const server = net.createServer((socket) => {
    const session = { say: (data, then) => socket.write(data, then), cut: () => socket.destroy() };
    session.reply = (...lines) => session.say(lines.map((line) => JSON.stringify(line) + "\n").join(""));
    sessions.push(session);
    let text = "";
    socket.setEncoding("utf8");
    socket.on("error", () => {});
    socket.on("close", () => {
      session.hasEnded = true;
      session.onEnd?.();
    });
    socket.on("end", () => socket.end());
    socket.on("data", (data) => {
      const lines = (text + data).split("\n");
      text = lines.pop();
      for (const line of lines) if (!session.hasEnded) onLine(JSON.parse(line), session, sessions);
    });
  });
  await new Promise((resolve) => server.listen(0, "127.0.0.1", resolve));
  return {
    address: { host: "127.0.0.1", port: server.address().port },
    sessions,
    close() {
      for (const session of sessions) session.cut();
      server.close();
    },
  };
}

const refusal = (code, error) => ({ code, error });

/** Whether a number is one of a source's last 16. */
const inWindow = (revs, n) => n <= revs.length && n + 16 > revs.length;

/** Documents by the rule of docs/ACCEPTANCE.md, in memory and without limits. */
export class Documents {
  #docs = new Map();

  /** The reply to a message, and what it did. */
  answer(message, source) {
    const doc = this.#docs.get(message.doc);
    if (message.do === "create") return this.#create(doc, message, source);
    if (doc === undefined) return refusal(6, "NoDocument");
    const newest = doc.deltas.length;
    if (message.do === "edit") return this.#edit(doc, message, source);
    if (message.do === "delete") return this.#delete(doc, message, source);
    if (message.do !== "unsubscribe" && doc.isDeleted) return refusal(40, "Deleted");
    if (message.rev > newest) return refusal(12, "Future");
    const rev = message.rev ?? newest;
    if (rev < doc.floor) return refusal(13, "TooOld");
    if (message.do === "fetch") return { doc: message.doc, ok: "doc", ops: this.at(message.doc, rev), rev };
    if (message.do === "since") return { deltas: doc.deltas.slice(rev), doc: message.doc, ok: "since", rev: newest };
    if (message.do === "subscribe") return { doc: message.doc, ok: "subscribed", rev };
    return { doc: message.doc, ok: "unsubscribed" };
  }

  at(name, rev = Infinity) {
    const deltas = this.#docs.get(name).deltas.slice(0, rev);
    return deltas.reduce((contents, ops) => contents.compose(new Delta(ops)), new Delta()).ops;
  }

  newest(name) {
    return this.#docs.get(name)?.deltas.length ?? 0;
  }

  deltaOf(name, rev) {
    return this.#docs.get(name).deltas[rev - 1];
  }

  /** Forgets what is older. */
  raise(name, floor) {
    this.#docs.get(name).floor = floor;
  }

  floor(name) {
    return this.#docs.get(name).floor;
  }

  #create(doc, { doc: name, n, ops }, source) {
    const revs = doc?.sources.get(source) ?? []; // by number, from 1 on
    if (inWindow(revs, n)) return { doc: name, n, ok: "again", rev: revs[n - 1] };
    if (doc?.isDeleted) return this.#misnumbered(revs, n) ?? this.#turn(doc, name, source, n, ops, false);
    if (doc !== undefined) return refusal(7, "Exists");
    if (n > 1) return refusal(9, "Gap");
    this.#docs.set(name, { deltas: [ops], sources: new Map([[source, [1]]]), floor: 0 });
    return { doc: name, n, ok: "taken", rev: 1 };
  }

  #edit(doc, { doc: name, n, base, ops }, source) {
    const revs = doc.sources.get(source) ?? [];
    if (inWindow(revs, n)) return { doc: name, n, ok: "again", rev: revs[n - 1] };
    const misnumbered = this.#misnumbered(revs, n);
    if (misnumbered) return misnumbered;
    if (doc.isDeleted) return refusal(40, "Deleted");
    if (base > doc.deltas.length) return refusal(12, "Future");
    if (base < doc.floor) return refusal(13, "TooOld");
    const late = doc.deltas.slice(base).reduce((delta, done) => new Delta(done).transform(delta, true), new Delta(ops));
    const rev = doc.deltas.push(late.ops);
    doc.sources.set(source, [...revs, rev]);
    return { doc: name, n, ok: "taken", rev };
  }

  #delete(doc, { doc: name, n }, source) {
    const revs = doc.sources.get(source) ?? [];
    if (inWindow(revs, n)) return { doc: name, n, ok: "again", rev: revs[n - 1] };
    const refused = this.#misnumbered(revs, n) ?? (doc.isDeleted ? refusal(40, "Deleted") : undefined);
    const length = new Delta(this.at(name)).length();
    return refused ?? this.#turn(doc, name, source, n, [{ delete: length }], true);
  }

  #misnumbered(revs, n) {
    if (n < revs.length) return refusal(10, "OldNumber");
    return n > revs.length + 1 ? refusal(9, "Gap") : undefined;
  }

  // A deletion, or a creation of what was deleted: nothing older is held from then on.
  #turn(doc, name, source, n, ops, isDeleted) {
    const rev = doc.deltas.push(ops);
    doc.sources.set(source, [...(doc.sources.get(source) ?? []), rev]);
    Object.assign(doc, { floor: rev, isDeleted });
    return { doc: name, n, ok: "taken", rev };
  }
}

/** Those who are present in documents, as a gateway tells of them. */
class Rooms {
  #rooms = new Map(); // doc -> session -> its line
  #count = 0; // of sessions

  answer({ doc, at, rev }, session) {
    const room = this.#rooms.get(doc) ?? new Map();
    this.#rooms.set(doc, room);
    const isNew = !room.has(session);
    const line = { at, doc, presence: (session.presence ??= this.#count += 1), rev, user: `user of ${session.source}` };
    if (at === null) room.delete(session);
    else room.set(session, line);
    session.reply({ doc, ok: "presence" }, ...(isNew && at !== null ? [...room.values()].filter((other) => other !== line) : []));
    for (const other of room.keys()) if (other !== session) other.reply(line);
  }

  leave(session) {
    for (const [doc, room] of this.#rooms) if (room.has(session)) this.answer({ doc, at: null, rev: 0 }, session);
  }
}

/**
 * Serves documents. `refuse` may give a reply in place of the documents, and nothing is done then. `spoil` is called once they have
 * answered, and returns true where the reply isn't to be sent. With `lend` it is a gateway, which lends this name for a document to who said
 * hello with a token: `{ lease, epoch, n }`, or a refusal.
 * @param {{ refuse?: (message: any) => any, spoil?: (message: any, session: any) => boolean, lend?: (doc: string, token: string) => any }} [faults]
 */
export async function served({ refuse = () => undefined, spoil = () => false, lend } = {}) {
  const documents = new Documents();
  const rooms = new Rooms();
  const messages = []; // all but hello
  const tell = (session) => {
    for (const [doc, rev] of [...(session.follows ?? [])].sort()) {
      const newest = documents.newest(doc);
      const isHeld = rev >= documents.floor(doc);
      const lines = Array.from({ length: newest - rev }, (_, index) => rev + index + 1);
      if (isHeld) session.reply(...lines.map((news) => ({ doc, news, ops: documents.deltaOf(doc, news) })));
      else session.reply({ doc, ended: 13 });
      if (isHeld) session.follows.set(doc, newest);
      else session.follows.delete(doc);
    }
  };
  const server = await scripted((message, session, sessions) => {
    if (message.do === "hello") {
      Object.assign(session, { source: message.source, documents });
      session.follows = new Map();
      session.onEnd = () => rooms.leave(session);
      return session.reply(lend === undefined ? { ok: "hello" } : { gateway: 1, ok: "hello" });
    }
    messages.push(message);
    const lent = lend?.(message.doc, session.source);
    const refused = refuse(message);
    if (message.do === "presence" && lent !== undefined && refused === undefined) return rooms.answer(message, session);
    const given = message.do !== "lease" ? documents : { answer: () => (lent?.code ? lent : { doc: message.doc, ok: "lease", ...lent }) };
    const reply = refused ?? given.answer(message, lent?.lease ?? session.source);
    if (spoil(message, session)) return;
    session.reply(reply);
    if (reply.ok === "subscribed") session.follows.set(message.doc, reply.rev);
    if (reply.ok === "unsubscribed") session.follows.delete(message.doc);
    for (const other of sessions) if (!other.hasEnded) tell(other);
  });
  return Object.assign(server, { documents, messages });
}
