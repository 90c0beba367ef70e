// The versions of a note, where the gateway is told of an archive: who changed it and when, and its text then.

import { Delta } from "../../clients/js/delta.js";
import { Editable } from "../editor/editable.js";

const PAUSE = 60; // seconds: what one user changes without a longer pause is one version
const LISTED = 1_000; // revisions that are asked for at once
const WHEN = new Intl.DateTimeFormat(undefined, { dateStyle: "medium", timeStyle: "medium" });

/**
 * Versions of revisions: the newest of what one user changed in one go. Both are in order, the newest first.
 * @param {{ rev?: number, kind?: string, user?: string, source?: string, time?: number }[]} revisions  one without `rev` is a gap
 */
function versionsOf(revisions) {
  const versions = [];
  for (const { rev, kind, user, source, time } of revisions) {
    const last = versions.at(-1);
    const who = user ?? source;
    const isGone = kind === "delete";
    if (last?.rev !== undefined && last.who === who && last.isGone === isGone && last.since - time < PAUSE) last.since = time;
    else versions.push({ rev, isGone, who, time, since: time });
  }
  return versions;
}

const wordsOf = ({ rev, isGone, who }) => (rev === undefined ? "not kept" : isGone ? `${who} deleted it` : who);

export class Versions {
  #list;
  #text;
  #user;
  #open;
  #name;

  /** @param {{ list: HTMLElement, text: HTMLElement, user: string, onOpen: (version: { rev: number, ops: object[] } | undefined) => void }} where */
  constructor({ list, text, user, onOpen }) {
    this.#list = list;
    this.#text = new Editable(text);
    this.#text.enable(false);
    this.#user = user;
    this.#open = onOpen;
  }

  /** Lists the versions of a note. */
  async list(name) {
    this.#name = name;
    this.#list.replaceChildren();
    let before;
    do {
      const page = await this.#ask("versions", { limit: String(LISTED), ...(before && { before: String(before) }) });
      if (page === undefined || this.#name !== name) return;
      for (const version of versionsOf(page.versions)) this.#list.append(this.#item(version));
      before = page.next;
    } while (before !== null);
  }

  #item(version) {
    const item = document.createElement("li");
    const when = Object.assign(document.createElement("time"), { textContent: version.rev === undefined ? "" : WHEN.format(1_000 * version.time) });
    item.append(wordsOf(version), when);
    if (version.rev !== undefined && !version.isGone) item.onclick = () => this.#show(version.rev, item);
    else item.className = "none";
    return item;
  }

  async #show(rev, item) {
    const version = await this.#ask(`at/${rev}`);
    if (version === undefined) return;
    for (const other of this.#list.children) other.classList.toggle("open", other === item);
    this.#text.setContents(new Delta(version.ops));
    this.#open(version);
  }

  /** What a page of the note has, or undefined, and the list says why. */
  async #ask(page, query = {}) {
    const response = await fetch(`/docs/${this.#name}/${page}?${new URLSearchParams({ user: this.#user, ...query })}`);
    const type = response.headers.get("content-type") ?? "";
    const value = type.includes("json") ? await response.json() : { error: "no versions are kept here" };
    if (response.ok) return value;
    this.#list.append(Object.assign(document.createElement("li"), { className: "none", textContent: value.error }));
    return undefined;
  }
}
