// The page: notes that many write at once, each a document. The gateway lists them; the first line of a note is its title. The user's name
// is what the page's address has, as ?user=ann: who wants to know who somebody is sets something before the gateway that does.

import { Delta } from "../../clients/js/delta.js";
import { difference } from "../../clients/js/difference.js";
import { connect } from "../../clients/js/offline.js";
import { bind } from "../../clients/js/quill.js";
import { Editable } from "../editor/editable.js";
import { Versions } from "./versions.js";

const PREFIX = "note-"; // of the names of the documents that are notes
const PAUSE = 10_000; // milliseconds after which the list is asked for again
const STATES = { offline: "no connection", full: "the server is full", storeFailed: "the server's disk failed", refused: "not taken" };
const REASONS = { NotAllowed: "you may not change it", Replaced: "it was opened elsewhere", Deleted: "it was deleted", InDoubt: "perhaps not taken" };
const element = (id) => document.getElementById(id);

const user = new URLSearchParams(location.search).get("user") ?? "guest";
const server = `${location.protocol === "https:" ? "wss" : "ws"}://${location.host}/`;
const client = await connect({ url: `${server}?user=${encodeURIComponent(user)}`, server: `${server} ${user}` });
const editor = new Editable(element("text"));
let note; // the one that is open
let closing = new AbortController(); // it

// The list: names and titles, which the browser keeps, so that it is there without a network.

const KEPT = `notes of ${user}`;
const titles = new Map(JSON.parse(localStorage.getItem(KEPT) ?? "[]"));
const watched = new Set(); // names

const textOf = ({ ops }) => ops.map(({ insert }) => (typeof insert === "string" ? insert : "")).join("");

function showList() {
  localStorage.setItem(KEPT, JSON.stringify([...titles]));
  const items = [...titles].map(([name, title]) => {
    const item = Object.assign(document.createElement("li"), { textContent: title || "Untitled", className: name === note?.name ? "open" : "" });
    item.onclick = () => open(name);
    return item;
  });
  element("list").replaceChildren(...items);
}

function setTitle(name, contents) {
  const title = textOf(name === note?.name && !note.isClosed ? note.contents : contents).split("\n")[0].trim();
  if (titles.get(name) !== title) titles.set(name, title), showList();
}

/** Follows a note for its title. */
async function watch(name) {
  watched.add(name);
  try {
    const { rev, ops } = await client.fetch(name);
    let contents = new Delta(ops);
    setTitle(name, contents);
    for await (const news of client.follow(name, rev)) {
      contents = contents.compose(new Delta(news.ops));
      setTitle(name, contents);
    }
  } catch (error) {
    if (error.name === "Deleted") titles.delete(name), showList();
  }
  watched.delete(name); // and it is followed again as the list is read, if it is there
}

async function readList() {
  for (let after = ""; after !== null; ) {
    const page = await fetch(`/docs?${new URLSearchParams({ user, after, limit: "1000" })}`).then((response) => response.json());
    for (const name of page.docs) if (name.startsWith(PREFIX) && !watched.has(name)) watch(name);
    after = page.next;
  }
}

// One note.

function show() {
  const { state } = note ?? client;
  const words = [STATES[state] ?? state];
  if (note?.isSaved === false) words.unshift(note.isKept ? "kept here" : "not kept yet");
  element("state").textContent = words.join(", ");
  element("state").classList.toggle("cut", state !== "saved" && state !== "saving" && state !== "connected");
  element("undo").disabled = !note?.history.canUndo;
  element("redo").disabled = !note?.history.canRedo;
}

/** Tells what was refused, with its text, so that its user has it still. */
function tellLost(error, delta) {
  const [why, text] = [REASONS[error.name] ?? error.message, delta === undefined ? "" : textOf(delta).trim()];
  Object.assign(element("lost"), { hidden: false, textContent: text ? `${why}: \u201c${text}\u201d` : why });
}

async function open(name, create) {
  const opened = await client.open(name, { create });
  closing.abort();
  closing = new AbortController();
  const { signal } = closing;
  note = opened;
  location.hash = name;
  editor.enable(true);
  signal.addEventListener("abort", bind(editor, note));
  element("lost").hidden = true;
  const showPeople = () => (element("people").textContent = opened.presence.others.map((other) => other.user).join(", "));
  for (const event of ["progress", "state"]) note.addEventListener(event, show, { signal });
  note.addEventListener("progress", () => opened.isClosed || setTitle(name, opened.contents), { signal });
  note.addEventListener("trouble", ({ error, delta }) => tellLost(error, delta), { signal });
  note.addEventListener("doubt", ({ delta }) => tellLost({ name: "InDoubt" }, delta), { signal });
  note.presence.addEventListener("change", showPeople, { signal });
  for (const shown of [showPeople, showList, show]) shown();
  listVersions(false);
  editor.setSelection(0, 0);
}

// Its versions.

let then; // the one that is shown in place of the text

function showThen(version) {
  then = version;
  element("then").hidden = then === undefined;
  element("text").parentNode.hidden = !element("then").hidden;
}

function listVersions(isShown) {
  showThen(undefined);
  document.querySelector("aside").hidden = !isShown;
  if (isShown) versions.list(note.name).catch(() => {}); // without a network there are none
}

const versions = new Versions({ list: document.querySelector("aside ul"), text: document.querySelector("#then div"), user, onOpen: showThen });
element("versions").onclick = () => note && listVersions(document.querySelector("aside").hidden);
element("again").onclick = () => {
  editor.updateContents(difference(editor.getContents(), new Delta(then.ops)), "user");
  listVersions(false);
};

// The bar, and the page.

element("new").onclick = () => open(PREFIX + crypto.randomUUID(), [{ insert: "\n", attributes: { header: 1 } }]).catch(tellLost);
element("delete").onclick = () => client.delete(note.name).catch(tellLost);
for (const way of ["undo", "redo"]) element(way).onclick = () => note.history[way]();
for (const button of element("bar").querySelectorAll("button")) {
  const { format, line, value } = button.dataset;
  button.onmousedown = (event) => event.preventDefault(); // the selection stays in the text
  if (format) button.onclick = () => editor.toggle(format);
  if (line) button.onclick = () => editor.toggleLine(line, Number(value) || value);
}
element("text").addEventListener("keydown", (event) => {
  const way = { z: event.shiftKey ? "redo" : "undo", y: "redo" }[event.key.toLowerCase()];
  if (way === undefined || !(event.ctrlKey || event.metaKey)) return;
  event.preventDefault();
  note.history[way]();
});

/** Keeps the page itself in the browser, so that it can be loaded without a network. */
async function keepPage() {
  await navigator.serviceWorker?.register("worker.js");
  const files = performance.getEntriesByType("resource").map(({ name }) => new URL(name).pathname).filter((path) => !path.startsWith("/docs"));
  await (await caches.open("notes")).addAll([location.pathname, ...new Set(files)]);
}

client.addEventListener("state", show);
client.addEventListener("connected", () => readList().catch(() => {}));
setInterval(() => client.state === "connected" && readList().catch(() => {}), PAUSE);
for (const shown of [showList, show]) shown();
/** For the console, and for checks/windows.py. */
globalThis.notes = { client, editor, titles, get note() { return note; } };

await readList().catch(() => {}); // without a network the list is what it was
keepPage().catch(() => {}); // a browser that keeps nothing shows it all the same
for (const name of [location.hash.slice(1), ...titles.keys(), ...watched]) {
  if (note === undefined && (titles.has(name) || watched.has(name))) await open(name).catch(() => {}); // if it isn't deleted
}
