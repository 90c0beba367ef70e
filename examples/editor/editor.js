// The page: two editors on one document. Each has a client, and so a session and a source, of its own. What is typed outlives the page.

import { connect } from "../../clients/js/offline.js";
import { bind } from "../../clients/js/quill.js";
import { Editable } from "./editable.js";

const DOC = "letter";
const socket = `${location.protocol === "https:" ? "wss" : "ws"}://${location.host}/`;

/** Loads one of Quill's files where the bridge was given it. */
async function load(name) {
  const src = `/quill/${name}`;
  const { ok } = await fetch(src, { method: "HEAD" });
  if (!ok) return false;
  const script = Object.assign(document.createElement("script"), { src });
  document.head.append(script);
  await new Promise((resolve) => (script.onload = resolve));
  return true;
}

/** Quill's class where it is there, with quill-cursors where that is there, else undefined. */
async function loadQuill() {
  if (!(await load("quill.js"))) return undefined;
  document.head.append(Object.assign(document.createElement("link"), { rel: "stylesheet", href: "/quill/quill.snow.css" }));
  if (await load("quill-cursors.js")) globalThis.Quill.register("modules/cursors", globalThis.QuillCursors);
  return globalThis.Quill;
}

function editorIn(section, Quill) {
  const text = section.querySelector(".text");
  const toolbar = section.querySelector(".toolbar");
  if (Quill !== undefined) {
    toolbar.remove();
    const cursors = globalThis.QuillCursors !== undefined && { cursors: true };
    return new Quill(text, { theme: "snow", formats: ["bold", "italic"], modules: { toolbar: [["bold", "italic"]], ...cursors } });
  }
  const editor = new Editable(text);
  for (const [name, label] of [["bold", "B"], ["italic", "I"]]) {
    const button = Object.assign(document.createElement("button"), { textContent: label, title: name });
    button.onmousedown = (event) => event.preventDefault(); // the selection stays in the text
    button.onclick = () => editor.toggle(name);
    toolbar.append(button);
  }
  return editor;
}

// How it stands, and why it ended; other states are named as they are.
const STATES = { offline: "no connection", full: "the server is full", storeFailed: "the server's disk failed" };
const REASONS = { NotAllowed: "you may not change it", Replaced: "it was opened elsewhere", Deleted: "it was deleted" };

/** Ctrl+Z takes back what was typed here, and Ctrl+Y brings it back. Quill does this by itself. */
function addHistory(section, shared) {
  section.addEventListener("keydown", (event) => {
    const key = event.key.toLowerCase();
    if (!(event.ctrlKey || event.metaKey) || (key !== "z" && key !== "y")) return;
    event.preventDefault();
    if (key === "y" || event.shiftKey) shared.history.redo();
    else shared.history.undo();
  });
}

async function begin(section, Quill) {
  const client = await connect({ url: `${socket}?user=${section.id}`, server: socket });
  const stateLine = section.querySelector(".state");
  const show = (state, words) => {
    stateLine.classList.toggle("cut", state !== "saved" && state !== "saving");
    stateLine.textContent = [...words, STATES[state] ?? state].join(", ");
  };
  const showWaiting = () => show(client.state, []);
  client.addEventListener("state", showWaiting);
  showWaiting();
  const shared = await client.open(DOC, { create: [{ insert: "\n" }] });
  client.removeEventListener("state", showWaiting);

  const editor = editorIn(section, Quill);
  bind(editor, shared);
  if (Quill === undefined) addHistory(section, shared);
  let reason; // of the last trouble
  const showDocument = () => {
    const { state } = shared;
    const kept = shared.isSaved ? [] : [shared.isKept ? "kept here" : "not kept yet"];
    const why = (state === "refused" || state === "closed") && reason ? [reason] : [];
    show(state, [`revision ${shared.revision}`, ...kept, ...why]);
  };
  shared.addEventListener("trouble", ({ error, delta }) => {
    reason = REASONS[error.name] ?? error.message;
    stateLine.title = `${error.message}: ${JSON.stringify(delta.ops)}`;
    showDocument();
  });
  shared.addEventListener("doubt", ({ delta }) => (stateLine.title = `perhaps lost: ${JSON.stringify(delta.ops)}`));
  for (const name of ["progress", "state"]) shared.addEventListener(name, showDocument);
  showDocument();
  return { client, editor, shared };
}

const Quill = await loadQuill();
const sections = [...document.querySelectorAll("section")];
const editors = [];
for (const section of sections) {
  // one after the other, so that each has its source again when the page is loaded again
  try {
    editors.push(await begin(section, Quill));
  } catch (error) {
    section.querySelector(".state").textContent = error.message;
    throw error;
  }
}
/** For the console, and for checks/editor.py. */
globalThis.editors = editors;
