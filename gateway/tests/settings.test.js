// Settings that can't be used are refused with a reason, by the library and by the program.

import assert from "node:assert/strict";
import { spawnSync } from "node:child_process";
import { writeFileSync } from "node:fs";
import path from "node:path";
import test from "node:test";
import { createGateway } from "../gateway.js";
import { checkOrigins, checked } from "../settings.js";
import { ROOT, folderFor } from "./programs.js";

const store = { name: "s1", host: "127.0.0.1", port: 7000 };
const right = { stores: [store], data: "data" };
const etcd = { urls: ["http://127.0.0.1:2379"] };

const WRONG = [
  [{ stores: undefined }, /^stores: a list/],
  [{ stores: [] }, /^stores: a list/],
  [{ stores: [{ ...store, name: "a/b" }] }, /^a store's name has 1 to 32 characters/],
  [{ stores: [{ ...store, host: undefined }] }, /^store s1: host is missing/],
  [{ stores: [{ ...store, port: "7000" }] }, /^store s1: port is 1 to 65535, and not "7000"/],
  [{ stores: [{ ...store, new: "no" }] }, /^store s1: new is true or false/],
  [{ stores: [store, store], etcd }, /^stores: two have the same name/],
  [{ stores: [store, { ...store, name: "s2" }] }, /^several stores need etcd, or a rule/],
  [{ name: "a name" }, /^name has 1 to 12 characters/],
  [{ name: "x".repeat(13) }, /^name has 1 to 12 characters/],
  [{ readers: 3 }, /^readers is 1 or 2/],
  [{ writers: 0 }, /^writers is 1 to 64/],
  [{ guests: 0 }, /^guests is 1 to 64/],
  [{ readers: 2, writers: 54, guests: 8 }, /are 65 sessions, and a store has 64/],
  [{ writers: 32, names: 31 }, /^names is at least writers, which is 32/],
  [{ term: 0 }, /^term is a number of days above 0/],
  [{ recall: 0 }, /^recall is a whole number of seconds above 0/],
  [{ recheck: 0.5 }, /^recheck is a whole number of seconds above 0/],
  [{ origins: ["https://a b"] }, /^origins is a list/],
  [{ data: undefined }, /^data: a folder of this gateway's own/],
  [{ etcd: {} }, /^etcd: urls is a list/],
  [{ etcd: { urls: ["127.0.0.1:2379"] } }, /isn't http:\/\/HOST:PORT/],
  [{ etcd, rule: [{ prefix: "", store: "s1" }] }, /^rule is for a gateway without etcd/],
  [{ rule: [{ prefix: "a", store: "s9" }] }, /^rule: there is no store "s9"/],
  [{ rule: [{ prefix: "a", store: "s1" }, { prefix: "a", store: "s1" }] }, /^rule: a prefix stands twice/],
  [{ origins: "https://notes.example" }, /^origins is a list/],
  [{ origins: ["https://notes.example/"] }, /^origins is a list/],
  [{ hosts: "gateway" }, /^hosts is a list of names without a port/],
  [{ hosts: ["gateway:8080"] }, /^hosts is a list of names without a port/],
  [{ address: "x-forwarded-for" }, /^address: header is the name of a header/],
  [{ limits: { session: 1 } }, /^limits: session is none of sessions, /],
  [{ limits: { waitingBytes: 1_000 } }, /^limits: waitingBytes is at least lineBytes/],
  [{ limits: { newsBytes: 1.5 } }, /^limits: newsBytes is a whole number above 0/],
  [{ limits: { sessions: 0 } }, /^limits: sessions is a whole number above 0/],
  [{ user: { header: "x-remote-user" } }, /^there is no setting user/],
  [{ authorise: () => null }, /^there is no setting authorise/],
  [{ authorize: "ann" }, /^authorize is a function/],
  [{ can: null }, /^can is a function/],
];

test("each wrong setting is refused with a reason", async () => {
  for (const [wrong, reason] of WRONG) assert.throws(() => checked({ ...right, ...wrong }), ({ message }) => reason.test(message), JSON.stringify(wrong));
  await assert.rejects(createGateway({ ...right, stores: [] }), /stores/);
  assert.throws(() => checkOrigins("https://notes.example"), /^Error: origins is a list/);
});

test("the least settings have defaults", () => {
  const { name, readers, writers, guests, names, term, limits } = checked({ ...right, authorize: () => null });
  assert.deepEqual({ name, readers, writers, guests, names, term }, { name: "g", readers: 2, writers: 16, guests: 8, names: 120, term: 7 * 86_400_000 });
  assert.deepEqual(limits, {
    sessions: 20_000, userSessions: 200, addressSessions: 20_000, addressUnsigned: 1_000,
    userMessages: 2_000, userBytes: 1_048_576, userOverhead: 16_384, userReading: 250, userDocuments: 1_000,
    addressMessages: 20_000, addressBytes: 67_108_864, addressOverhead: 1_048_576, addressReading: 800, addressDocuments: 100_000,
    heldSeconds: 30, userNames: 4, userCreations: 1_000, userCreationsHour: 100,
    lineBytes: 67_108_864, newsBytes: 4_194_304, waitingBytes: 268_435_456, keptBytes: 67_108_864,
  });
  assert.equal(checked(right).limits.userNames, 120, "without authorize all are one user");
  assert.equal(checked({ stores: [store, { ...store, name: "s2" }], etcd }).data, undefined);
});

test("the program says why, with status 2", (t) => {
  const folder = folderFor(t);
  const file = path.join(folder, "settings.json");
  const run = (settings, ...words) => {
    writeFileSync(file, typeof settings === "string" ? settings : JSON.stringify({ ...right, data: path.join(folder, "data"), ...settings }));
    const { status, stderr } = spawnSync(process.execPath, [path.join(ROOT, "gateway/program.js"), ...words, "--settings", file], { encoding: "utf8", timeout: 20_000 });
    return `${status} ${stderr.trim()}`;
  };
  assert.match(run("{"), /^2 .*can't be read/);
  assert.match(run({ Listen: "127.0.0.1:0" }), /^2 .*there is no setting Listen/);
  assert.match(run({ listen: "8080" }), /^2 listen: "8080" isn't HOST:PORT/);
  assert.match(run({ listen: "0.0.0.0:0" }), /^2 nothing says who connects/);
  assert.match(run({ user: {} }), /^2 user: header is the name of a header/);
  const module = path.join(folder, "rights.mjs");
  writeFileSync(module, "export default { authorize: () => null };\n");
  assert.match(run({ module }), /^2 module: it exports none of authorize, can, onCommand, onTaken/);
  writeFileSync(module, "export const authorize = null;\n");
  assert.match(run({ module }), /^2 authorize is a function/);
  assert.match(run({ module: "./missing.js" }), /^2 .*missing\.js/);
  assert.match(run({ stores: [] }), /^2 stores: a list/);
  assert.match(run({}, "import"), /^2 usage: /);
  assert.match(run({}, "import", "s9"), /^2 .*has no store s9/);
  assert.match(spawnSync(process.execPath, [path.join(ROOT, "gateway/program.js")], { encoding: "utf8" }).stderr, /^usage: /);
});
