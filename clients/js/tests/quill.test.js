// `bind`, over a stub of Quill 2, over Quill 1 itself, and over an object with the four methods of Quill that it needs.

import assert from "node:assert/strict";
import { EventEmitter } from "node:events";
import test from "node:test";
import { Delta } from "../delta.js";
import { bind } from "../quill.js";
import { connect } from "../richd.js";
import { Draw } from "./draw.js";
import { served, until } from "./fake.js";
import { Quill as Stub } from "./quill_stub.js";
import { Quill as Real, needsRealQuill } from "./real_quill.js";

/** As Quill: its contents end with a line's end, and each change is told, its own as well, without its source. */
class Editor extends EventEmitter {
  contents = new Delta([{ insert: "\n" }]);

  getContents() {
    return this.contents;
  }

  setContents(delta) {
    this.updateContents({ ops: [...delta.ops, { delete: this.contents.length() }] });
    if (!this.contents.ops.at(-1)?.insert.endsWith("\n")) throw new Error("Quill would add a line's end");
  }

  updateContents(delta) {
    this.contents = this.contents.compose(new Delta(delta.ops));
    this.emit("text-change", new Delta(delta.ops));
  }
}

/** Objects of this program's own, as those of a page have other prototypes. */
const plain = (value) => JSON.parse(JSON.stringify(value));

/** Runs a test over Quill itself where it is there. */
const real = (name, run) => test(`${name}, in Quill 1.3`, needsRealQuill, (t) => run(t, Real));

/** Runs a test over the stub, and over Quill itself where it is there. */
function each(name, run) {
  test(`${name}, in a stub`, (t) => run(t, Stub));
  test(`${name}, in Quill 1.3`, needsRealQuill, (t) => run(t, Real));
}

let parted; // the last event of an editor that showed something else

/** A server with a document, and what opens it for one who has an editor, until the test ends. */
async function prepared(t, Quill, ops = [{ insert: "\n" }], faults = {}) {
  const server = await served(faults);
  t.after(() => server.close());
  const person = async (quill = new Quill(), options = {}, source) => {
    const client = await connect({ ...server.address, source });
    t.after(() => client.close());
    if (server.documents.newest("d") === 0) await client.create("d", ops);
    const document = await client.open("d");
    const troubles = [];
    document.addEventListener("trouble", ({ error, delta, isFinal }) => troubles.push([error.name, plain(delta.ops), isFinal]));
    document.addEventListener("trouble", (event) => event.shown && (parted = event));
    return { server: server.address, client, document, quill, troubles, unbind: bind(quill, document, options) };
  };
  const settled = async (...people) => {
    await new Promise(setImmediate); // what is in a page is told by then
    const newest = () => server.documents.newest("d");
    const areThere = () => people.every(({ document }) => document.revision === newest());
    let before;
    do {
      await until(areThere);
      before = newest();
      await Promise.all(people.map(({ document }) => document.flush()));
    } while (!areThere() || newest() !== before); // what others did may have let an editor tell more
  };
  const areAlike = (...people) => {
    for (const { quill, document } of people) {
      assert.deepEqual(document.contents.ops, server.documents.at("d"));
      assert.deepEqual(plain(quill.getContents().ops), server.documents.at("d"));
    }
  };
  return { server, person, settled, areAlike, text: () => server.documents.at("d").map(({ insert }) => insert).join("") };
}

const NAMES = new Map([[Stub, "a stub"], [Editor, "an object with four methods"], [Real, "Quill 1.3"]]);

for (const ops of [[], [{ insert: "Hello" }], [{ insert: "Hello\n" }], [{ insert: "Hello\n" }, { insert: { image: "p" } }]]) {
  for (const Class of [Stub, Editor, Real]) {
    test(`two editors on ${JSON.stringify(ops)}, each ${NAMES.get(Class)}`, Class === Real ? needsRealQuill : {}, async (t) => {
      const { person, settled, areAlike } = await prepared(t, Class, ops);
      const ann = await person(new Class());
      await ann.document.flush();
      const bob = await person(new Class());
      ann.quill.updateContents({ ops: [{ insert: "left" }] }, "user");
      bob.quill.updateContents({ ops: [{ insert: "right", attributes: { bold: true } }] }, "user");
      bob.quill.updateContents({ ops: [{ retain: 1 }, { insert: "-" }] }); // by the page's own code
      await settled(ann, bob);
      areAlike(ann, bob);
      ann.unbind();
      ann.quill.updateContents({ ops: [{ insert: "alone" }] }, "user");
      assert.ok(ann.document.isSaved);
    });
  }
}

each("undo takes back what its own user did, and neither the document nor what others typed", async (t, Quill) => {
  const { person, settled, areAlike, text } = await prepared(t, Quill, [{ insert: "A long text.\n" }]);
  const [ann, bob] = [await person(), await person()];
  bob.quill.history.undo();
  bob.quill.press(0, "bob ");
  await settled(ann, bob);
  bob.quill.history.cutoff();
  ann.quill.press(0, "ann ");
  await settled(ann, bob);
  bob.quill.history.undo();
  await settled(ann, bob);
  assert.equal(text(), "ann A long text.\n");
  bob.quill.history.redo();
  await settled(ann, bob);
  areAlike(ann, bob);
  assert.equal(text(), "ann bob A long text.\n");
  const other = await bob.client.open("e", { create: [{ insert: "another\n" }] });
  bob.unbind();
  bind(bob.quill, other);
  bob.quill.history.undo();
  assert.deepEqual(other.contents.ops, [{ insert: "another\n" }]);
});

each("undo and redo are the document's, by keys and by the editor's history, and the caret goes there", async (t, Quill) => {
  const { person, settled, areAlike, text } = await prepared(t, Quill, [{ insert: "one two\n" }]);
  const [ann, bob] = [await person(), await person()];
  ann.quill.press(3, "AAA");
  ann.quill.history.cutoff();
  ann.quill.press(0, "BBB");
  await settled(ann, bob);
  bob.quill.press(4, "xyz");
  await settled(ann, bob);
  assert.equal(text(), "BBBoxyzneAAA two\n");
  ann.quill.select({ index: 16, length: 0 });
  const undo = () => ann.quill.key("z", { ctrlKey: true });
  const redo = () => ann.quill.key("z", { ctrlKey: true, shiftKey: true });
  const texts = [undo, undo, undo, redo, redo].map((turn) => (turn(), ann.quill.getText()));
  assert.deepEqual(texts, ["oxyzneAAA two\n", "oxyzne two\n", "oxyzne two\n", "oxyzneAAA two\n", "BBBoxyzneAAA two\n"]);
  assert.deepEqual([ann.quill.getSelection().index, ann.document.history.canUndo], [3, true]);
  ann.document.history.undo();
  ann.quill.history.undo();
  await settled(ann, bob);
  areAlike(ann, bob);
  ann.quill.history.clear();
  assert.equal(ann.document.history.canRedo, false);
  ann.unbind();
  ann.quill.press(0, "alone");
  ann.quill.history.undo();
  assert.equal(ann.quill.getText(), "oxyzne two\n");
});

each("what is in the page, and wasn't told yet, comes before what others did", async (t, Quill) => {
  const { person, settled, areAlike, text } = await prepared(t, Quill, [{ insert: "one two\n" }]);
  const [ann, bob] = [await person(), await person()];
  ann.quill.type(0, "\u304b");
  bob.quill.press(7, "!");
  await settled(ann, bob);
  areAlike(ann, bob);
  assert.equal(text(), "\u304bone two!\n");
});

each("while a character is composed the editor is left alone", async (t, Quill) => {
  const { person, settled, areAlike, text } = await prepared(t, Quill, [{ insert: "one two\n" }]);
  const [ann, bob] = [await person(), await person()];
  ann.quill.compose(3, "\u304b");
  bob.quill.press(0, "bob ");
  bob.quill.press(11, "!");
  await settled(bob);
  await until(() => ann.document.revision === bob.document.revision);
  assert.ok(!ann.quill.getText().includes("bob"));
  ann.quill.compose(4, "\u306a");
  ann.quill.endComposition();
  await settled(ann, bob);
  areAlike(ann, bob);
  assert.equal(text(), "bob one\u304b\u306a two!\n");
  ann.quill.press(ann.quill.getLength() - 1, "?");
  await settled(ann, bob);
  assert.equal(text(), "bob one\u304b\u306a two!?\n");
});

for (const tellsAtOnce of [false, true]) {
  test(`what is composed, and told within an update${tellsAtOnce ? " together with it" : ""}, is taken`, async (t) => {
    const { person, settled, areAlike, text } = await prepared(t, Stub, [{ insert: "one two\n" }]);
    const quill = Object.assign(new Stub({ tellsAtOnce }), { root: undefined });
    const [ann, bob] = [await person(quill), await person()];
    quill.root = new EventTarget(); // which the binding doesn't know
    quill.compose(0, "\u304b");
    bob.quill.press(0, "bob ");
    await until(() => bob.document.isSaved);
    await until(() => ann.document.revision >= bob.document.revision);
    await settled(ann, bob);
    areAlike(ann, bob);
    assert.deepEqual([...text()].sort().join(""), [..."bob \u304bone two\n"].sort().join(""));
    assert.deepEqual(ann.troubles, []);
  });
}

each("what a module of the editor does about another's change is taken", async (t, Quill) => {
  const { person, settled, areAlike, text } = await prepared(t, Quill);
  const quill = new Quill();
  quill.on("text-change", (delta, before, source) => {
    if (source !== "user" && delta.ops[0]?.insert === "@bob") quill.updateContents({ ops: [{ retain: 4 }, { insert: " (away)" }] });
  });
  const [ann, bob] = [await person(quill), await person()];
  bob.quill.press(0, "@bob");
  await until(() => text() === "@bob (away)\n");
  await settled(ann, bob);
  areAlike(ann, bob);
});

each("a line's end that somebody takes away at the end is put there again", async (t, Quill) => {
  const { person, settled, areAlike, text } = await prepared(t, Quill, [{ insert: "Hello\n" }]);
  const ann = await person();
  const bob = await connect(ann.server);
  t.after(() => bob.close());
  await bob.edit("d", [{ retain: 1 }, { delete: 5 }], 1);
  await until(() => text() === "H\n");
  await settled(ann);
  areAlike(ann);
  ann.quill.press(1, "i");
  await settled(ann);
  assert.equal(text(), "Hi\n");
  assert.deepEqual(ann.troubles, []);
});

for (const Class of [Stub, Editor, Real]) {
  const needed = Class === Real ? needsRealQuill : {};
  test(`a line's end that its own user takes away at the end is put there again, in ${NAMES.get(Class)}`, needed, async (t) => {
    const { person, settled, areAlike, text } = await prepared(t, Class, [{ insert: "Hello\n" }]);
    const ann = await person(new Class());
    ann.quill.updateContents({ ops: [{ retain: 4 }, { delete: 2 }] }, "user");
    ann.quill.updateContents({ ops: [{ insert: "I say: " }] }, "user");
    await settled(ann);
    areAlike(ann);
    assert.equal(text(), "I say: Hell\n");
    assert.deepEqual(ann.troubles, []);
  });
}

each("a line's end that is taken away while a character is composed, and what others did meanwhile", async (t, Quill) => {
  const { person, settled, areAlike, text } = await prepared(t, Quill, [{ insert: "Hello\n" }]);
  const ann = await person();
  const bob = await connect(ann.server);
  t.after(() => bob.close());
  ann.quill.compose(5, "!");
  await bob.edit("d", [{ insert: "Oh. " }], 1);
  await until(() => ann.document.contents.ops[0].insert.startsWith("Oh"));
  ann.quill.updateContents({ ops: [{ retain: 6 }, { delete: 1 }] }, "user");
  assert.ok(!ann.quill.getText().includes("Oh"));
  ann.quill.endComposition();
  await settled(ann);
  areAlike(ann);
  assert.equal(text(), "Oh. Hello!\n");
  assert.deepEqual(ann.troubles, []);
});

each("what the document refuses is taken out of the editor again", async (t, Quill) => {
  const { person, settled, areAlike, text } = await prepared(t, Quill);
  const [ann, bob] = [await person(), await person()];
  ann.quill.press(0, "before ");
  const image = { image: "data:image/png;base64," + "A".repeat(70_000) };
  const link = "http://127.0.0.1/" + "a".repeat(70_000);
  ann.quill.press(7, image);
  ann.quill.press(7, "half \ud83d");
  ann.quill.updateContents({ ops: [{ retain: 6, attributes: { link } }] }, "user");
  assert.equal(ann.document.state, "refused");
  ann.quill.press(7, "after");
  await settled(ann, bob);
  areAlike(ann, bob);
  assert.equal(text(), "before after\n");
  assert.deepEqual(ann.troubles, [
    ["LineTooLong", [{ retain: 7 }, { insert: image }], false],
    ["CutsPair", [{ retain: 7 }, { insert: "half \ud83d" }], false],
    ["LineTooLong", [{ retain: 6, attributes: { link } }], false],
  ]);
  ann.quill.history.undo();
  await settled(ann, bob);
  areAlike(ann, bob);
});

// Each: what a document has, what two do at the same time, and what it has then.
const EXCLUSIVE = [
  ["a header and a list", "line\n", [[{ retain: 4 }, { retain: 1, attributes: { header: 1 } }], [{ retain: 4 }, { retain: 1, attributes: { list: "bullet" } }]],
    [{ insert: "line" }, { insert: "\n", attributes: { list: "bullet" } }]],
  ["a quotation and a block of code", "line\n", [[{ retain: 4 }, { retain: 1, attributes: { blockquote: true } }], [{ retain: 4 }, { retain: 1, attributes: { "code-block": true } }]],
    [{ insert: "line" }, { insert: "\n", attributes: { "code-block": true } }]],
  ["bold text in a block of code", "line\n", [[{ retain: 4, attributes: { bold: true } }], [{ retain: 4 }, { retain: 1, attributes: { "code-block": true } }]],
    [{ insert: "line" }, { insert: "\n", attributes: { "code-block": true } }]],
  ["an image in a block of code", "line\n", [[{ retain: 2 }, { insert: { image: "/a.png" } }], [{ retain: 4 }, { retain: 1, attributes: { "code-block": true } }]],
    [{ insert: "li" }, { insert: { image: "/a.png" } }, { insert: "ne\n" }]],
  ["a list and a block of code", "line\n", [[{ retain: 4 }, { retain: 1, attributes: { list: "bullet" } }], [{ retain: 4 }, { retain: 1, attributes: { "code-block": true } }]],
    [{ insert: "line" }, { insert: "\n", attributes: { "code-block": true } }]], // which Quill keeps, though a list is set after it
  ["a list and a line that is joined to it", "one\ntwo\n", [[{ retain: 7 }, { retain: 1, attributes: { list: "ordered" } }], [{ retain: 3 }, { delete: 1 }]],
    [{ insert: "onetwo" }, { insert: "\n", attributes: { list: "ordered" } }]],
];

for (const [what, before, [one, other], after] of EXCLUSIVE) {
  for (const isFirst of [true, false]) {
    real(`of ${what} each window and the document keep the same, the ${isFirst ? "first" : "second"} being sooner`, async (t) => {
      const { person, settled, areAlike, server } = await prepared(t, Real, [{ insert: before }]);
      const [ann, bob] = [await person(), await person()];
      const both = [() => ann.quill.updateContents({ ops: one }, "user"), () => bob.quill.updateContents({ ops: other }, "user")];
      for (const act of isFirst ? both : both.reverse()) act();
      await settled(ann, bob);
      await settled(ann, bob); // what they took out, too
      areAlike(ann, bob);
      assert.deepEqual(server.documents.at("d"), after);
      const { length } = server.messages;
      ann.quill.press(0, "x");
      bob.quill.press(bob.quill.getLength() - 1, "y");
      await settled(ann, bob);
      areAlike(ann, bob);
      assert.ok(server.messages.length - length < 8, "they go on changing it");
      assert.deepEqual([ann.troubles, bob.troubles], [[], []]);
      ann.quill.history.undo();
      await settled(ann, bob);
      areAlike(ann, bob);
    });
  }
}

real("an editor with fewer formats shows fewer, and leaves the others to the document", async (t) => {
  const ops = [
    { insert: "plain " }, { insert: "both", attributes: { bold: true, italic: true } }, { insert: { image: "/a.png" } }, { insert: "end" },
    { insert: "\n", attributes: { list: "bullet" } }, { insert: "a\rb" }, { insert: "\n", attributes: { "x-own": 7 } },
  ];
  const { person, settled, areAlike, server } = await prepared(t, Real, ops);
  const [ann, bob] = [await person(), await person(new Real({ formats: ["bold"] }))];
  const shown = [{ insert: "plain " }, { insert: "both", attributes: { bold: true } }, { insert: "\ufffcend\na b\n" }];
  assert.deepEqual(plain(bob.quill.getContents().ops), shown);
  assert.deepEqual(plain(ann.quill.getContents().ops.slice(0, 5)), ops.slice(0, 5));
  bob.quill.press(0, "x");
  ann.quill.updateContents({ ops: [{ retain: 1, attributes: { italic: true } }] }, "user");
  await settled(ann, bob);
  assert.deepEqual([ann, bob].map(({ document }) => document.contents.ops), [server.documents.at("d"), server.documents.at("d")]);
  assert.deepEqual(server.documents.at("d").slice(-2), ops.slice(-2));
  assert.deepEqual(plain(bob.quill.getContents().ops), [{ insert: "xplain " }, ...shown.slice(1)]);
  assert.deepEqual([ann.troubles, bob.troubles, ann.document.state], [[], [], "saved"]);
});

real("an editor that throws at a change is set anew", async (t) => {
  const code = { "code-block": true };
  const ops = [{ insert: "ab" }, { insert: "\n\n", attributes: code }, { insert: "c" }, { insert: "\n", attributes: { list: "ordered" } }];
  const { person, settled, areAlike } = await prepared(t, Real, ops);
  const [ann, bob] = [await person(), await person()];
  ann.document.apply([{ retain: 3 }, { delete: 2 }]); // at which Quill 1 throws
  await settled(ann, bob);
  assert.deepEqual(plain(bob.quill.getContents().ops), [{ insert: "ab" }, { insert: "\n", attributes: code }, { insert: "\n", attributes: { list: "ordered" } }]);
  bob.quill.press(1, "x");
  await settled(ann, bob);
  areAlike(bob);
  assert.deepEqual(bob.troubles, []);
});

real("an editor that throws at what its user did is set anew, and the document isn't saved until he types again", async (t) => {
  const code = { "code-block": true };
  const ops = [{ insert: "a" }, { insert: "\n", attributes: { list: "bullet" } }, { insert: "b" }, { insert: "\n", attributes: code }, { insert: "\n", attributes: { list: "bullet" } }];
  const { person, settled, areAlike } = await prepared(t, Real, ops);
  const ann = await person();
  assert.throws(() => ann.quill.deleteText(3, 2, "user"));
  ann.quill.window.dispatchEvent(new ann.quill.window.Event("error")); // as a browser does where keys are pressed
  await settled(ann);
  areAlike(ann);
  assert.deepEqual([ann.troubles, ann.document.state, parted.isDisabled], [[["Parted", [], false]], "refused", false]);
  ann.quill.press(0, "x");
  await settled(ann);
  areAlike(ann);
  assert.equal(ann.document.state, "saved");
});

each("an editor that can't show the document is disabled, and told with both contents; the document isn't saved", async (t, Quill) => {
  const { person, settled, server } = await prepared(t, Quill, [{ insert: "Hello\n" }]);
  const [ann, bob] = [await person(), await person()];
  for (const name of ["updateContents", "setContents"]) {
    bob.quill[name] = () => {
      throw new Error("broken");
    };
  }
  ann.quill.press(0, "x");
  await settled(ann);
  await until(() => bob.troubles.length === 1);
  assert.deepEqual([bob.quill.isEnabled(), bob.document.state, bob.document.isSaved, bob.document.isClosed], [false, "parted", false, false]);
  assert.deepEqual(bob.troubles, [["Parted", [], false]]);
  assert.deepEqual([plain(parted.contents.ops), plain(parted.shown.ops), parted.isDisabled], [[{ insert: "xHello\n" }], [{ insert: "Hello\n" }], true]);
  assert.equal(await bob.document.flush(), server.documents.newest("d"));
  bob.unbind();
  assert.equal(bob.document.state, "saved");
});

// As macOS and many robots write it, with letters and accents apart; Hangul of parts; joined emoji, with a variation; from right to left.
const TEXTS = ["cafe\u0301 noir", "\u1112\u1161\u11ab\u1100\u1173\u11af", "\u{1f468}\u200d\u{1f469}\u200d\u{1f467} \u2764\ufe0f", "\u05e9\u05c1\u05dc\u05d5\u05dd \u0628\u0650", "5 \u2126", "\ufb2a x"];

for (const typed of TEXTS) {
  each(`text stays as it was typed, composed or opened: ${JSON.stringify(typed)}`, async (t, Quill) => {
    const { person, settled, areAlike, text } = await prepared(t, Quill, [{ insert: `${typed}\n` }]);
    const [ann, bob] = [await person(), await person()];
    assert.equal(ann.quill.getText(), `${typed}\n`);
    ann.quill.type(typed.length, ` ${typed}`);
    ann.quill.update();
    await settled(ann, bob);
    areAlike(ann, bob);
    ann.quill.compose(typed.length, typed);
    ann.quill.endComposition();
    await settled(ann, bob);
    areAlike(ann, bob);
    bob.quill.press(2 * typed.length, "|");
    bob.quill.press(0, typed);
    await settled(ann, bob);
    areAlike(ann, bob);
    assert.equal(text(), `${typed}${typed}${typed}| ${typed}\n`);
    assert.deepEqual([ann.troubles, bob.troubles, ann.document.state], [[], [], "saved"]);
  });
}

each("a long document is typed in, and changed, at any place", async (t, Quill) => {
  const draw = new Draw(9);
  const runs = Array.from({ length: 100 }, (_, run) => ({ insert: `run ${run}`, ...(run % 2 > 0 && { attributes: { bold: true } }) }));
  const { person, settled, areAlike } = await prepared(t, Quill, [...runs, { insert: "\n" }]);
  const [ann, bob] = [await person(), await person()];
  for (let count = 0; count < 30; count += 1) {
    const { quill } = draw.of([ann, bob]);
    const place = 1 + draw.below(quill.getLength() - 4);
    if (draw.below(2) > 0) quill.type(place, draw.of(["x", "é", "\u{1f600}"]));
    else quill.updateContents({ ops: [{ retain: place }, draw.of([{ insert: "\n" }, { retain: 1, attributes: { italic: true } }])] }, "user");
    if (draw.below(4) === 0) await settled(ann, bob);
  }
  await settled(ann, bob);
  areAlike(ann, bob);
  for (const { troubles } of [ann, bob]) assert.deepEqual(troubles, []);
});

each("a character that begins as its neighbour does is typed as a whole", async (t, Quill) => {
  const { person, settled, areAlike, text } = await prepared(t, Quill, [{ insert: "\u{1f601}\n" }]);
  const ann = await person();
  ann.quill.updateContents({ ops: [{ retain: 1 }, { insert: "\ude00\ud83d" }] }, "user"); // as a comparison of code units tells it
  await settled(ann);
  areAlike(ann);
  assert.deepEqual([text(), ann.troubles], ["\u{1f600}\u{1f601}\n", []]);
});

each("a composition that ends without a word is over once something else is done", async (t, Quill) => {
  const { person, settled, areAlike } = await prepared(t, Quill, [{ insert: "one\n" }]);
  const [ann, bob] = [await person(), await person()];
  ann.quill.root.dispatchEvent(new (ann.quill.window ?? globalThis).Event("compositionstart"));
  bob.quill.press(0, "bob ");
  await settled(ann, bob);
  assert.equal(ann.quill.getText(), "one\n");
  ann.quill.root.dispatchEvent(new (ann.quill.window ?? globalThis).Event("keydown"));
  areAlike(ann, bob);
  assert.equal(ann.document.state, "saved");
});

each("what is uploaded or composed isn't saved before it is in the document", async (t, Quill) => {
  const { person, settled } = await prepared(t, Quill);
  let end;
  const ann = await person(new Quill(), { upload: () => new Promise((resolve) => (end = resolve)) });
  ann.quill.press(0, { image: "data:," });
  await ann.document.flush();
  assert.deepEqual([ann.document.state, ann.document.isKept], ["saving", false]);
  end("/a.png");
  await settled(ann);
  assert.equal(ann.document.state, "saved");
  ann.quill.compose(0, "か");
  await ann.document.flush();
  assert.equal(ann.document.state, "saving");
  ann.quill.endComposition();
  await settled(ann);
  assert.equal(ann.document.state, "saved");
});

each("an editor that shows something else is found at the next change, and set right", async (t, Quill) => {
  const { person, settled, areAlike, text } = await prepared(t, Quill, [{ insert: "Hello\n" }]);
  const ann = await person();
  ann.quill.updateContents({ ops: [{ insert: "unseen " }] }, "silent");
  ann.quill.press(12, "!");
  assert.deepEqual(ann.troubles, [["Parted", [{ retain: 12 }, { insert: "!" }], false]]);
  areAlike(ann);
  ann.quill.press(5, "!");
  await settled(ann);
  areAlike(ann);
  assert.equal(text(), "Hello!\n");
});

each("a deletion, or the document's end, disables the editor", async (t, Quill) => {
  const { person } = await prepared(t, Quill, [{ insert: "Hello\n" }]);
  const [ann, bob] = [await person(), await person()];
  await ann.client.delete("d");
  await until(() => !ann.quill.isEnabled() && !bob.quill.isEnabled());
  ann.quill.press(0, "lost");
  assert.equal(ann.quill.getText(), "Hello\n");
  assert.deepEqual(bob.troubles, [["Deleted", [], true]]);
  const late = new Quill();
  bind(late, bob.document);
  assert.deepEqual([late.getText(), late.isEnabled()], ["Hello\n", false]);
});

each("a pasted image is uploaded, and its URL put in its place", async (t, Quill) => {
  const { person, settled, areAlike, server } = await prepared(t, Quill, [{ insert: "one two\n" }]);
  const uploads = [];
  const upload = (url, name) => new Promise((resolve, reject) => uploads.push({ url, name, resolve, reject }));
  const [ann, bob] = [await person(new Quill(), { upload }), await person()];
  const image = { image: "data:image/png;base64," + "A".repeat(70_000) };
  const pasted = [{ retain: 3 }, { insert: " see " }, { insert: image, attributes: { width: "9" } }, { insert: " here" }];
  ann.quill.updateContents({ ops: pasted }, "user");
  assert.equal(ann.quill.getText(), "one see  here two\n");
  bob.quill.press(0, "bob ");
  ann.quill.press(0, "ann ");
  await settled(ann, bob);
  assert.deepEqual(uploads.map(({ url, name }) => [url, name]), [[image.image, "image"]]);
  uploads[0].resolve("/blobs/1.png");
  await until(() => server.documents.at("d").length === 3);
  await settled(ann, bob);
  areAlike(ann, bob);
  const [before, embed, after] = server.documents.at("d");
  assert.deepEqual([embed, before.insert.slice(-5), after.insert.slice(0, 5)], [{ insert: { image: "/blobs/1.png" }, attributes: { width: "9" } }, " see ", " here"]);
  assert.deepEqual(ann.troubles, []);
  ann.quill.press(0, { image: "data:," });
  await until(() => uploads.length === 2);
  uploads[1].reject(new Error("no room"));
  await until(() => ann.troubles.length === 1);
  assert.deepEqual(ann.troubles, [["Error", [{ insert: { image: "data:," } }], false]]);
  areAlike(ann, bob);
  ann.quill.press(0, { image: "data:,x" });
  await until(() => uploads.length === 3);
  ann.quill.enable(false); // the page lets nothing more be typed
  uploads[2].resolve("/blobs/2.png");
  await until(() => ann.document.contents.ops[0].insert.image === "/blobs/2.png");
  await settled(ann, bob);
  areAlike(ann, bob);
});

const lending = { lend: (doc, token) => ({ lease: token, epoch: 1 }) };
const withCursors = (Quill) => new Quill({ modules: { cursors: true } });
const cursorsIn = ({ quill }) => quill.getModule("cursors").cursors().map(({ name, range }) => `${name.replace("user of ", "")} ${range.index}+${range.length}`).sort();
const shows = (person, ...cursors) => until(() => String(cursorsIn(person)) === String(cursors));

each("editors with quill-cursors show where the others are, as they select, type and go", async (t, Quill) => {
  const { person, settled, areAlike } = await prepared(t, Quill, [{ insert: "Hello world\n" }], lending);
  const ann = await person(withCursors(Quill), {}, "ann");
  const bob = await person(withCursors(Quill), { colorOf: (user) => `color of ${user}` }, "bob");
  const cas = await person(new Quill(), {}, "cas"); // who shows nobody, and of whom nobody is told
  await shows(ann, "bob 0+0");
  await shows(bob, "ann 0+0");
  ann.quill.select({ index: 5, length: 0 });
  bob.quill.select({ index: 6, length: 5 });
  await shows(ann, "bob 6+5");
  await shows(bob, "ann 5+0");
  assert.equal(bob.quill.getModule("cursors").cursors()[0].color, "color of user of ann");
  ann.quill.press(5, "!");
  assert.deepEqual(cursorsIn(ann), ["bob 7+5"]);
  cas.quill.press(0, "Oh. ");
  await settled(ann, bob, cas);
  await shows(ann, "bob 11+5");
  await shows(bob, "ann 10+0");
  areAlike(ann, bob, cas);
  ann.quill.select(null);
  bob.quill.select({ index: 1, length: 0 });
  await shows(ann, "bob 1+0");
  assert.deepEqual(cursorsIn(bob), ["ann 10+0"]);
  ann.unbind();
  await shows(bob);
  assert.deepEqual(cursorsIn(ann), []);
  bob.client.close();
  await until(() => bob.document.isClosed);
  assert.deepEqual(cursorsIn(bob), []);
});

each("while a character is composed a caret stays where it is, and the own one is told as the document has it", async (t, Quill) => {
  const { person, settled, areAlike } = await prepared(t, Quill, [{ insert: "Hello world\n" }], lending);
  const [ann, bob] = [await person(withCursors(Quill), {}, "ann"), await person(withCursors(Quill), {}, "bob")];
  bob.quill.select({ index: 11, length: 0 });
  await shows(ann, "bob 11+0");
  ann.quill.compose(5, "か");
  await new Promise(setImmediate); // Quill 1 tells it at once
  const before = cursorsIn(ann);
  bob.quill.press(0, "ABC ");
  await until(() => ann.document.contents.ops[0].insert.startsWith("ABC"));
  assert.deepEqual(cursorsIn(ann), before);
  ann.quill.select({ index: 2, length: 0 });
  await shows(bob, "ann 6+0");
  ann.quill.endComposition();
  await settled(ann, bob);
  areAlike(ann, bob);
  await shows(ann, "bob 16+0");
  await shows(bob, "ann 6+0");
});
