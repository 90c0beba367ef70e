// Three stores, etcd, two gateways and HAProxy before them, and many browsers as programs. checks/cluster.py runs it, and says what it does.
// usage: node cluster.js [SECONDS] [SESSIONS] [TYPERS] [PLACES]

import os from "node:os";
import { pause } from "../programs.js";
import { Checked } from "./checked.js";
import { usage } from "./programs.js";
import { Cluster, PLACES } from "./running.js";

const given = process.argv.slice(2).map(Number);
const [seconds = 60, sessions = 2_000, typing = Math.max(2, Math.floor(sessions / 10)), placesSeconds = 60] = given;
const PERIOD = Number(process.env.PERIOD ?? 400); // milliseconds from one edit of a typer to its next
const BULKY = "bulky"; // the document that changes by much
const DEAF = 20; // browsers that read nothing of it
const MOST_MORE = 160 << 20; // bytes that a gateway may have more for them
const VISITORS = 10; // browsers that open a document where there is no place
const LONGEST = 300_000; // milliseconds that all else may take
const FAREWELL = 30_000; // milliseconds that the programs may take to end

const endings = [];
const say = (line) => console.log(`        ${line}`);
const megabytes = (bytes) => `${Math.round(bytes / (1 << 20))} MB`;
const at = (times, part) => times.sort((one, other) => one - other)[Math.min(times.length - 1, Math.floor(times.length * part))];
const shown = (times) => (times.length === 0 ? "-" : [0.5, 0.99, 1].map((part) => at(times, part).toFixed(0)).join(" / "));
const percent = (part) => `${(100 * part).toFixed(1)} %`;
const sizes = (programs) => [...programs.values()].map(({ bytes }) => megabytes(bytes)).join(" and ");

async function run() {
  const cluster = new Cluster({ after: (ending) => endings.push(ending) });
  const { model } = os.cpus()[0];
  say(`node ${process.version}, ${os.cpus().length} processors (${model.trim()}), load ${os.loadavg()[0].toFixed(1)} as it begins`);
  await cluster.begin();
  const watching = cluster.watchMemory();
  const empty = usage().gateways;
  const began = performance.now();
  const documents = await cluster.open(sessions, typing);
  say(`${sessions} browsers in ${documents} documents are there after ${((performance.now() - began) / 1_000).toFixed(1)} s, ${typing} of them type`);
  say(`memory of the gateways: ${sizes(empty)} without browsers, ${sizes(usage().gateways)} with all, quiet`);
  await cluster.all("type", { period: PERIOD });
  await pause(Math.min(5_000, 200 * seconds));

  await cluster.phase("calm", () => pause(250 * seconds));
  await cluster.phase("kills", () => cluster.kills(350 * seconds));
  const docs = await cluster.phase("a fourth store", async () => (await Promise.all([cluster.grow(), pause(200 * seconds)]))[0]);
  const deaf = await deafen(cluster);
  const places = placesSeconds > 0 ? await withoutPlaces(cluster) : { said: "", differences: [] };
  cluster.isOver = true;
  await watching;
  const seen = await cluster.finish();
  const statuses = await cluster.end();

  const checked = new Checked(seen, cluster.stores.map((store) => ({ name: store.name, docs: store.dump() })), await cluster.places());
  checked.compare();
  checked.newOnes([...docs, BULKY], "s4");
  for (const difference of [...deaf.differences, ...places.differences]) checked.differ(difference);
  if (statuses.some((status) => status !== 0)) checked.differ(`the gateways ended with ${statuses}`);
  tell(cluster, checked);
  say(deaf.said);
  if (places.said) say(`${places.said}, ${checked.counts.full ?? 0} browsers were refused`);
  if (checked.counts.full > 0) checked.differ("browsers were refused");
  if (checked.counts["edits in doubt"] > 0) checked.differ("edits were in doubt, and no name was lent on");
  for (const difference of checked.differences) console.log(`DIFFERENCE  ${difference}`);
  const isGood = checked.differences.length === 0;
  console.log(`${isGood ? "ok" : "FAILED"}: ${sessions} browsers, ${cluster.stores.length} stores, ${cluster.killed} kills, ${checked.summary()}`);
  return isGood;
}

/** Some browsers follow a document that changes by much, ask for it again and again, and read nothing. */
async function deafen(cluster) {
  const [before, began] = [usage().gateways, performance.now()];
  const asked = await cluster.phase("some read nothing", async () => {
    const bytes = await cluster.browsers[0].do("deafen", { doc: BULKY, count: DEAF });
    await pause(200 * seconds);
    return bytes;
  });
  const more = Math.max(...[...before].map(([pid, { bytes }]) => cluster.most(pid, began) - bytes));
  await cluster.browsers[0].do("listen");
  const said = `${DEAF} browsers asked for ${megabytes(asked)} and read nothing, and a gateway has at most ${megabytes(more)} more`;
  return { said, differences: more < MOST_MORE ? [] : [said] };
}

/** All places of a store are taken by others. */
async function withoutPlaces(cluster) {
  const store = cluster.stores[2];
  const waiting = [...(await cluster.places())].filter(([, name]) => name === store.name).map(([doc]) => doc);
  const opened = await cluster.phase("64 places taken", async () => {
    const release = await cluster.takePlaces(store);
    const visits = cluster.browsers[0].do("visit", { docs: waiting.slice(0, VISITORS) });
    await pause(1_000 * placesSeconds);
    release();
    return visits;
  }, waiting);
  const said = `all ${PLACES} places of ${store.name} were taken for ${placesSeconds} s: ${waiting.length} documents and ${VISITORS} new browsers waited`;
  return { said, differences: opened > 900 * placesSeconds ? [] : [`documents of ${store.name} were opened though it had no place`] };
}

function tell({ phases, memory }, { times, counts, inStores }) {
  for (const { name, took, used } of phases) {
    for (const label of [name, `${name}, there`].filter((it) => it in times)) {
      const { reply, seen, news } = times[label];
      const rates = `${reply.length} edits, ${Math.round(reply.length / took)}/s, ${Math.round(news / took)} news/s`;
      say(`${label}, ${took.toFixed(0)} s: ${rates}; reply ${shown(reply)} ms, seen ${shown(seen)} ms (p50 / p99 / longest)`);
    }
    const programs = Object.entries(used).map(([kind, { processors, bytes }]) => `${kind} ${percent(processors)} (${megabytes(bytes)})`);
    say(`  processors: ${programs.join(", ")}`);
  }
  say(`memory of a gateway at most: ${megabytes(Math.max(...memory.map(({ bytes }) => bytes)))}`);
  say(`documents: ${inStores()}; ${Object.entries(counts).map(([what, count]) => `${count} ${what}`).join(", ")}`);
}

// It is bounded in time, and leaves no program behind.
const ended = new Promise((_, reject) => {
  setTimeout(() => reject(new Error("it doesn't end")), 1_000 * (seconds + placesSeconds) + LONGEST).unref();
  for (const signal of ["SIGINT", "SIGTERM"]) process.once(signal, () => reject(new Error(`ended by ${signal}`)));
});
let isGood = false;
try {
  isGood = await Promise.race([run(), ended]);
} finally {
  setTimeout(() => process.exit(1), FAREWELL).unref();
  for (const ending of endings.reverse()) await ending();
}
process.exit(isGood ? 0 : 1);
