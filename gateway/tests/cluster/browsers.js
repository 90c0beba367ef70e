// A process of browsers: those of some of the documents. cluster.js starts it, tells it what to do, and gets what it saw.

import { connect } from "../../../clients/js/node.js";
import { webSockets } from "../../websockets.js";
import { until } from "../programs.js";
import { DeafFollower, Follower } from "./follower.js";
import { Report } from "./report.js";
import { Typer } from "./typer.js";

const { WebSocket } = webSockets();
const AT_ONCE = 50; // browsers that connect at the same time
const WITNESSES = 5; // one of so many followers measures
const BULK = 40_000; // letters that an edit of the bulky document puts in
const ASKED = 250; // times that one asks for it who reads nothing
const SETTLED = 180_000; // milliseconds

const report = new Report();
/** @type {Typer[]} */
let typers = [];
/** @type {Follower[]} */
let followers = [];
const others = []; // documents that were opened besides
let url;
let isOver = false;
let isBulky = false;
let work = Promise.resolve();
let deaf = [];

const addressOf = (doc, user) => `${url}/${doc}?user=${user}`;

async function inGroups(all, act) {
  for (let from = 0; from < all.length; from += AT_ONCE) await Promise.all(all.slice(from, from + AT_ONCE).map(act));
}

async function open(doc, user, options) {
  const client = await connect({ url: addressOf(doc, user), WebSocket, timeout: 600_000 });
  const document = await client.open(doc, options);
  document.addEventListener("trouble", ({ error }) => report.differ(`${doc}: ${user} has trouble: ${error.message}`));
  others.push({ doc, document, client });
  return document;
}

const acts = {
  /** Opens all sessions, first those that type: they create the documents. */
  async begin(share) {
    url = share.url;
    typers = share.typers.map((who) => new Typer({ ...who, url: addressOf(who.doc, who.id) }, report));
    followers = share.followers.map((who, at) => new Follower({ ...who, url: addressOf(who.doc, who.id), isWitness: at % WITNESSES === 0 }, report));
    await inGroups(typers, (typer) => typer.begin());
    await inGroups(followers, (follower) => follower.begin());
  },

  async phase({ name, apart }) {
    report.begin(name, apart);
  },

  async type({ period }) {
    work = Promise.all(typers.map((typer) => typer.type(period, () => isOver)));
    work.catch((error) => report.differ(`a browser can't type: ${error.stack}`));
  },

  /** Has all edits that are to come soon typed now. */
  async hurry() {
    for (const typer of typers) typer.hurry();
  },

  /** Has one of so many pages in which somebody types loaded anew. */
  async reload({ oneOf }) {
    for (const typer of typers) if (Math.random() * oneOf < 1) typer.reload();
  },

  /** Creates documents, each with a letter in it that is on the disk then. */
  async create({ docs }) {
    await Promise.all(docs.map(async (doc) => {
      const document = await open(doc, `maker-of-${doc}`, { create: [{ insert: "\n" }] });
      document.apply([{ insert: "n" }]);
      await document.flush();
    }));
  },

  /** Opens documents, however long that takes: how many milliseconds. */
  async visit({ docs }) {
    const began = performance.now();
    await Promise.all(docs.map((doc) => open(doc, `visitor-of-${doc}`)));
    return performance.now() - began;
  },

  /** Browsers that ask for a document, which changes as fast as it may, and read nothing. How many bytes they ask for at least. */
  async deafen({ doc, count }) {
    const document = await open(doc, "bulk", { create: [{ insert: "\n" }] });
    document.apply([{ insert: "x".repeat(BULK) }]);
    await document.flush();
    deaf = Array.from({ length: count }, (_, index) => new DeafFollower({ id: `deaf${index}`, doc, url: addressOf(doc, `deaf${index}`) }, report));
    await Promise.all(deaf.map((follower) => follower.begin(ASKED)));
    isBulky = true;
    (async () => {
      while (isBulky) {
        document.apply([{ insert: "x".repeat(BULK) }, { delete: BULK }]);
        await document.flush();
      }
    })().catch((error) => report.differ(`the bulky document: ${error.message}`));
    return count * ASKED * BULK;
  },

  /** Those that read nothing read again: each gets what it missed in order, or fetches. */
  async listen() {
    isBulky = false;
    const { document } = others.find(({ doc }) => doc === deaf[0].doc);
    await document.flush();
    for (const follower of deaf) follower.listen();
    await until(() => deaf.every(({ last }) => last === document.revision), "those that didn't read have all", SETTLED);
    for (const follower of deaf) follower.end();
  },

  /** Ends the typing: the newest revision of each document, once all that was typed is on the disk. */
  async stop() {
    isOver = true;
    await work;
    const newest = {};
    for (const { doc, document } of [...typers, ...others]) newest[doc] = Math.max(newest[doc] ?? 0, await document.flush());
    return newest;
  },

  /** Waits until all have the newest revisions, and gives what there is. */
  async finish({ newest }) {
    const isSettled = () => [...typers, ...others].every(({ doc, document }) => document.isSaved && document.revision === newest[doc])
      && followers.every(({ doc, last }) => last === newest[doc]);
    await until(isSettled, "all browsers have the same", SETTLED).catch((error) => report.differ(error.message));
    const shown = [...typers, ...others].map(({ doc, document }) => ({ doc, rev: document.revision, ops: document.contents.ops }));
    const written = typers.map((typer) => typer.written);
    const followed = followers.map(({ id, doc, last }) => ({ id, doc, rev: last }));
    const { counts, differences, times } = report;
    return { shown, written, followed, counts, differences, times };
  },
};

process.on("message", async ({ id, act, about }) => {
  try {
    process.send({ id, value: await acts[act](about) });
  } catch (error) {
    process.send({ id, error: error.stack });
  }
});
process.on("disconnect", () => process.exit(0));
