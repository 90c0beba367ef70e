// `document.history`: undo and redo of what one user did.

import assert from "node:assert/strict";
import test from "node:test";
import { Delta } from "../delta.js";
import { Steps } from "../history.js";
import { connect } from "../richd.js";
import { Draw } from "./draw.js";
import { served, until } from "./fake.js";

/** A server with a document that two have opened, until the test ends. */
async function prepared(t, faults) {
  const server = await served(faults);
  t.after(() => server.close());
  const open = async () => {
    const client = await connect(server.address);
    t.after(() => client.close());
    return client.open("d", { create: [{ insert: "one two three\n" }] });
  };
  const [ann, bob] = [await open(), await open()];
  const settled = async () => {
    await Promise.all([ann.flush(), bob.flush()]);
    await until(() => [ann, bob].every(({ revision }) => revision === server.documents.newest("d")));
  };
  return { server, ann, bob, settled, text: () => server.documents.at("d").map(({ insert }) => insert).join("") };
}

test("undo and redo, past what somebody else did, and told as a change", async (t) => {
  const { ann, bob, settled, text } = await prepared(t);
  const shown = { contents: ann.contents };
  ann.addEventListener("change", ({ delta }) => (shown.contents = shown.contents.compose(delta)));
  const type = (ops) => {
    shown.contents = shown.contents.compose({ ops });
    ann.apply(ops);
  };
  assert.deepEqual([ann.history.canUndo, ann.history.undo()], [false, false]);
  type([{ retain: 3 }, { insert: " and" }]);
  type([{ retain: 7 }, { insert: " a" }]);
  type([{ retain: 9 }, { insert: " half" }]);
  ann.history.endStep();
  type([{ retain: 4 }, { retain: 3, attributes: { bold: true } }]);
  ann.history.endStep();
  type([{ delete: 4 }]);
  await settled();
  assert.equal(text(), "and a half two three\n");
  bob.apply([{ insert: "bob: " }]);
  bob.apply([{ retain: 19 }, { delete: 6 }]);
  await settled();
  assert.equal(text(), "bob: and a half two\n");
  const seen = [];
  while (ann.history.undo()) seen.push(ann.contents.ops);
  assert.deepEqual(seen, [
    [{ insert: "bob: one " }, { insert: "and", attributes: { bold: true } }, { insert: " a half two\n" }],
    [{ insert: "bob: one and a half two\n" }],
    [{ insert: "bob: one two\n" }],
  ]);
  assert.deepEqual([ann.history.canUndo, ann.history.canRedo], [false, true]);
  bob.apply([{ insert: "oh, " }]);
  await settled();
  while (ann.history.redo());
  await settled();
  assert.equal(text(), "oh, bob: and a half two\n");
  assert.deepEqual(shown.contents.ops, ann.contents.ops);
  ann.history.undo();
  ann.apply([{ insert: "x" }]);
  assert.equal(ann.history.canRedo, false);
});

test("a step of which others left nothing is gone", async (t) => {
  const { ann, bob, settled } = await prepared(t);
  ann.apply([{ insert: "xyz" }]);
  await settled();
  bob.apply([{ delete: 3 }]);
  await settled();
  assert.equal(ann.history.canUndo, false);
  bob.history.undo(); // brings it back, as bob's
  await settled();
  assert.equal(ann.history.canUndo, false);
});

test("it ends where the document was fetched over, and where something typed was taken back", async (t) => {
  const refuse = (message) => (message.do === "edit" && message.ops[0].insert === "heavy" ? { code: 16, error: "TooHeavy" } : undefined);
  const { server, ann, bob, settled } = await prepared(t, { refuse });
  ann.apply([{ insert: "x" }]);
  await settled();
  assert.ok(ann.history.canUndo);
  server.sessions[0].cut();
  for (const base of [2, 3]) server.documents.answer({ do: "edit", doc: "d", n: base - 1, base, ops: [{ insert: "a" }] }, "other");
  server.documents.raise("d", 4);
  bob.apply([{ insert: "b" }]);
  await settled();
  assert.equal(ann.history.canUndo, false);
  ann.apply([{ insert: "heavy" }]);
  await assert.rejects(ann.flush());
  assert.equal(ann.history.canUndo, false);
});

test("drawn steps, undone, leave what others did alone", () => {
  const draw = new Draw(5);
  for (let number = 0; number < 100; number += 1) {
    const steps = new Steps();
    let [contents, others] = [draw.document(), draw.document()];
    others = contents; // what there is without the user's steps
    let own = new Delta(); // from `others` to `contents`
    for (let round = 0; round < 6; round += 1) {
      const change = draw.change(contents);
      steps.end();
      steps.record(change.invert(contents));
      contents = contents.compose(change);
      own = own.compose(change);
      const remote = draw.change(others);
      const shown = own.transform(remote, false);
      own = remote.transform(own, true);
      others = others.compose(remote);
      contents = contents.compose(shown);
      steps.move(shown);
    }
    const after = contents;
    for (let step = steps.take("undo", contents); step !== undefined; step = steps.take("undo", contents)) contents = contents.compose(step);
    for (let step = steps.take("redo", contents); step !== undefined; step = steps.take("redo", contents)) contents = contents.compose(step);
    assert.deepEqual(contents.ops, after.ops);
  }
});

test("a hundred steps are kept", () => {
  const steps = new Steps();
  for (let number = 0; number < 250; number += 1) {
    steps.end();
    steps.record(new Delta().delete(1));
  }
  let count = 0;
  while (steps.take("undo", new Delta().insert("x".repeat(300)))) count += 1;
  assert.equal(count, 100);
});
