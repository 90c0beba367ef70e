// Who is where in a document, through a gateway in the test's hands.

import assert from "node:assert/strict";
import test from "node:test";
import { Delta } from "../delta.js";
import { placeBefore } from "../presence.js";
import { connect } from "../richd.js";
import { Draw } from "./draw.js";
import { served, until } from "./fake.js";

const pause = (milliseconds) => new Promise((resolve) => setTimeout(resolve, milliseconds));
const heard = (target, name) => new Promise((resolve) => target.addEventListener(name, resolve, { once: true }));
const isPresence = (message) => message.do === "presence";

/** A gateway with a document, and people in it, until the test ends. */
async function prepared(t, faults = {}) {
  const server = await served({ lend: (doc, token) => ({ lease: token, epoch: 1 }), ...faults });
  t.after(() => server.close());
  const person = async (source) => {
    const client = await connect({ ...server.address, source });
    t.after(() => client.close());
    const document = await client.open("d", { create: [{ insert: "Hello world\n" }] });
    return { client, document, presence: document.presence, session: server.sessions.at(-1) };
  };
  const settled = (...people) => until(() => people.every(({ document }) => document.isSaved && document.revision === server.documents.newest("d")));
  const told = () => server.messages.filter(isPresence);
  return { server, person, settled, told };
}

/** Those whom somebody sees, as `user index+length`. */
const seenBy = ({ presence }) => presence.others.map(({ user, range }) => `${user.replace("user of ", "")} ${range.index}+${range.length}`).sort();
const sees = (person, ...others) => until(() => String(seenBy(person)) === String(others));

test("two who are present see each other, and no more once one has left", async (t) => {
  const { person } = await prepared(t);
  const [ann, bob] = [await person("ann"), await person("bob")];
  ann.presence.set({ index: 5, length: 0 });
  await pause(50);
  assert.deepEqual(seenBy(bob), []); // he hasn't told where he is
  const [{ others }] = await Promise.all([heard(bob.presence, "change"), bob.presence.set({ index: 1, length: 3 })]);
  assert.deepEqual(others, [{ id: "1", user: "user of ann", range: { index: 5, length: 0 } }]);
  await sees(ann, "bob 1+3");
  ann.presence.set({ index: 0, length: 2 });
  await sees(bob, "ann 0+2");
  ann.presence.set(null);
  await sees(bob);
  assert.deepEqual(seenBy(ann), []);
  ann.presence.set({ index: 4, length: 0 });
  await sees(bob, "ann 4+0");
  await sees(ann, "bob 1+3");
  bob.document.close();
  await sees(ann);
  ann.client.close();
});

test("who types moves the others' carets and his own, of which nobody has to be told", async (t) => {
  const { person, settled, told } = await prepared(t);
  const [ann, bob] = [await person("ann"), await person("bob")];
  ann.presence.set({ index: 5, length: 0 });
  bob.presence.set({ index: 8, length: 2 });
  await sees(ann, "bob 8+2");
  await sees(bob, "ann 5+0");
  const count = told().length;
  for (const [index, letter] of [..." wide"].entries()) ann.document.apply([{ retain: 5 + index }, { insert: letter }]);
  assert.deepEqual(seenBy(ann), ["bob 13+2"]); // at once
  assert.deepEqual(seenBy(bob), ["ann 5+0"]);
  await settled(ann, bob);
  await sees(bob, "ann 10+0");
  assert.deepEqual(seenBy(ann), ["bob 13+2"]);
  bob.document.apply([{ delete: 2 }]);
  await settled(ann, bob);
  assert.deepEqual([seenBy(ann), seenBy(bob)], [["bob 11+2"], ["ann 8+0"]]);
  await pause(150);
  assert.equal(told().length, count);
});

test("what others write at one's caret stands behind it, which is told", async (t) => {
  const { person, settled, told } = await prepared(t);
  const [ann, bob, cas] = [await person("ann"), await person("bob"), await person("cas")];
  for (const [who, index] of [[ann, 5], [bob, 0], [cas, 0]]) who.presence.set({ index, length: 0 });
  await sees(cas, "ann 5+0", "bob 0+0");
  await sees(bob, "ann 5+0", "cas 0+0");
  const count = told().length;
  bob.document.apply([{ retain: 5 }, { insert: "!!" }]);
  assert.deepEqual(seenBy(bob), ["ann 5+0", "cas 0+0"]);
  await settled(ann, bob, cas);
  await sees(cas, "ann 5+0", "bob 0+0");
  assert.deepEqual(seenBy(bob), ["ann 5+0", "cas 0+0"]);
  assert.equal(told().length, count + 1);
});

test("a caret waits for its revision, and is moved over those that came since", async (t) => {
  const { person, server, settled } = await prepared(t);
  const [ann, bob] = [await person("ann"), await person("bob")];
  ann.presence.set({ index: 0, length: 0 });
  await pause(50);
  const line = (presence, rev, at) => ann.session.reply({ at, doc: "d", presence, rev, user: "far" });
  line(71, 3, [9, 9]);
  line(72, 1, [2, 4]);
  await sees(ann, "far 2+2");
  bob.document.apply([{ insert: "ab" }]);
  await settled(ann, bob);
  assert.deepEqual(seenBy(ann), ["far 4+2"]);
  ann.document.apply([{ insert: "c" }]);
  await settled(ann, bob);
  await sees(ann, "far 5+2", "far 9+0");
  line(71, 1, [11, 7]); // a selection that goes backwards, told before the two revisions
  await sees(ann, "far 10+4", "far 5+2");
  line(72, 3, null);
  line(71, 3, null);
  await sees(ann);
  assert.equal(server.messages.filter(({ do: kind }) => kind === "since").length, 0);
});

test("who comes new asks for what a caret has to be moved over, once", async (t) => {
  const { person, server, settled } = await prepared(t);
  const [ann, bob] = [await person("ann"), await person("bob")];
  ann.presence.set({ index: 3, length: 1 });
  bob.presence.set({ index: 6, length: 0 });
  await sees(ann, "bob 6+0");
  for (const letter of "abc") {
    ann.document.apply([{ retain: 5 }, { insert: letter }]);
    await settled(ann, bob);
  }
  const cas = await person("cas");
  cas.presence.set({ index: 0, length: 0 });
  await sees(cas, "ann 3+1", "bob 9+0");
  assert.deepEqual(server.messages.filter(({ do: kind }) => kind === "since").map(({ rev }) => rev), [1]);
  bob.document.apply([{ insert: "x" }]);
  await settled(ann, bob, cas);
  assert.deepEqual(seenBy(cas), ["ann 4+1", "bob 10+0"]);
});

test("a caret whose past is no longer held isn't shown until it moves", async (t) => {
  const { person, server, settled, told } = await prepared(t);
  const ann = await person("ann");
  ann.presence.set({ index: 3, length: 0 });
  await until(() => told().length === 1);
  ann.document.apply([{ retain: 5 }, { insert: "!" }]);
  await settled(ann);
  server.documents.raise("d", 2);
  const bob = await person("bob");
  bob.presence.set({ index: 0, length: 0 });
  await sees(ann, "bob 0+0");
  await pause(50);
  assert.deepEqual(seenBy(bob), []);
  ann.presence.set({ index: 4, length: 0 });
  await sees(bob, "ann 4+0");
});

test("it is told again after a cut, and the others are there again", async (t) => {
  const { person } = await prepared(t);
  const [ann, bob] = [await person("ann"), await person("bob")];
  ann.presence.set({ index: 3, length: 0 });
  bob.presence.set({ index: 6, length: 0 });
  await sees(bob, "ann 3+0");
  await sees(ann, "bob 6+0");
  ann.session.cut();
  await sees(bob);
  await sees(ann);
  await sees(bob, "ann 3+0");
  await sees(ann, "bob 6+0");
});

test("it is told at most each 100 milliseconds, and the last of it surely", async (t) => {
  const { person, told } = await prepared(t);
  const [ann, bob] = [await person("ann"), await person("bob")];
  bob.presence.set({ index: 0, length: 0 });
  const began = performance.now();
  for (let index = 0; index < 40; index += 1) {
    ann.presence.set({ index: index % 11, length: 0 });
    await pause(10);
  }
  ann.presence.set({ index: 11, length: 0 });
  await sees(bob, "ann 11+0");
  assert.ok(told().length <= 3 + (performance.now() - began) / 100, `${told().length}`);
});

test("a gateway that can't take it now is told again, and one that refuses it isn't asked on and on", async (t) => {
  const refusals = [{ code: 22, error: "NoMemory" }];
  const { person, told, server } = await prepared(t, { refuse: (message) => (isPresence(message) ? refusals.shift() : undefined) });
  const [ann, bob] = [await person("ann"), await person("bob")];
  ann.presence.set({ index: 3, length: 0 });
  await until(() => told().length === 1);
  bob.presence.set({ index: 0, length: 0 });
  await sees(bob, "ann 3+0");
  assert.ok(server.sessions.every(({ hasEnded }) => !hasEnded));
  refusals.push({ code: 60, error: "NotAllowed" });
  bob.presence.set({ index: 1, length: 0 });
  await pause(300);
  assert.equal(told().length, 4);
});

test("a server that tells of somebody's presence and is no gateway is cut off", async (t) => {
  const { person, server } = await prepared(t, { lend: undefined });
  const ann = await person("ann");
  ann.session.reply({ at: [0, 0], doc: "d", presence: 1, rev: 1, user: "x" });
  await heard(ann.client, "cut");
  assert.equal(server.messages.filter(isPresence).length, 0);
});

for (const line of [{ presence: -1 }, { presence: "1" }, { at: [1] }, { at: [0, -1] }, { at: undefined }, { rev: null }, { user: 3 }]) {
  test(`a gateway that says ${JSON.stringify(line)} of somebody's presence is cut off`, async (t) => {
    const { person } = await prepared(t);
    const ann = await person("ann");
    ann.session.reply({ at: [0, 0], doc: "d", presence: 1, rev: 1, user: "x", ...line });
    await heard(ann.client, "cut");
  });
}

test("where a place was before a change", () => {
  const draw = new Draw(5);
  for (let round = 0; round < 3_000; round += 1) {
    const length = 1 + draw.below(12);
    const change = new Delta();
    const gone = new Set();
    for (let at = 0; at < length; ) {
      const part = Math.min(length - at, 1 + draw.below(4));
      const what = draw.below(3);
      if (what === 0) change.insert("xyz".slice(draw.below(3)));
      if (what === 1) for (let index = at + 1; index < at + part; index += 1) gone.add(index);
      if (what === 1) change.delete(part);
      else change.retain(part);
      at += part;
    }
    for (let index = 0; index <= length; index += 1) {
      const after = change.transformPosition(index);
      const before = placeBefore(change, after);
      assert.equal(change.transformPosition(before), after, JSON.stringify([change.ops, index, after, before]));
      if (!gone.has(index) && change.ops.every((op) => op.delete === undefined)) assert.equal(before, index);
    }
  }
});

test("drawn typing of three who are present: each is seen where he is", async (t) => {
  const draw = new Draw(Number(process.env.SEED ?? 3));
  const { person, settled, server } = await prepared(t);
  const people = [await person("ann"), await person("bob"), await person("cas")];
  for (const one of people) {
    const move = (delta, isOthers) => (one.at = one.at.map((index) => new Delta(delta.ops).transformPosition(index, isOthers)));
    one.put = (at) => {
      one.at = at;
      one.presence.set({ index: at[0], length: at[1] - at[0] });
    };
    one.type = (ops) => {
      move({ ops }, false);
      one.document.apply(ops);
    };
    one.document.addEventListener("change", ({ delta }) => move(delta, true));
    one.put([0, 0]);
  }
  for (let round = 0; round < 250; round += 1) {
    const one = draw.of(people);
    const { length } = one.document;
    const place = draw.below(2) === 0 ? one.at[0] : draw.below(length);
    const what = draw.below(8);
    if (what < 4) one.type([{ retain: place }, { insert: "ab\n".slice(draw.below(3)) }].filter(({ retain }) => retain !== 0));
    else if (what < 6 && place + 2 < length) one.type([{ retain: place }, { delete: 1 + draw.below(2) }].filter(({ retain }) => retain !== 0));
    else if (what === 6) one.put([place, place + draw.below(length - place)]);
    else if (draw.below(6) === 0) server.sessions.filter(({ hasEnded }) => !hasEnded)[draw.below(3)]?.cut();
    if (draw.below(3) === 0) await pause(draw.below(15));
  }
  await settled(...people);
  const seen = (one) => `${one.client.source} ${one.at[0]}+${one.at[1] - one.at[0]}`;
  for (const one of people) await sees(one, ...people.filter((other) => other !== one).map(seen).sort());
});

test("where the document is fetched anew the carets are moved past what makes it of the one before", async (t) => {
  let documents;
  const spoil = ({ ops }) => {
    if (ops?.[0]?.insert === "Oh. ") documents.raise("d", 2); // so that nobody is told of the revision itself
    return false;
  };
  const { person, server, settled } = await prepared(t, { spoil });
  ({ documents } = server);
  const [ann, bob, cas] = [await person("ann"), await person("bob"), await person("cas")];
  ann.presence.set({ index: 5, length: 0 });
  bob.presence.set({ index: 6, length: 5 });
  await sees(ann, "bob 6+5");
  await sees(bob, "ann 5+0");
  const rebased = Promise.all([ann, bob].map(({ document }) => heard(document, "rebased")));
  cas.document.apply([{ insert: "Oh. " }]);
  await rebased;
  await settled(ann, bob, cas);
  await sees(ann, "bob 10+5");
  await sees(bob, "ann 9+0");
});
