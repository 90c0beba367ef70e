// The declarations: a strict program compiles with them, and a wrong one doesn't.

import assert from "node:assert/strict";
import { spawnSync } from "node:child_process";
import { writeFileSync } from "node:fs";
import path from "node:path";
import test from "node:test";
import { ROOT, folderFor } from "./programs.js";

const needsTsc = { skip: spawnSync("tsc", ["--version"]).status === 0 ? false : "there is no tsc, Debian's node-typescript" };

const RIGHT = `
import { createGateway, CODE, type Settings, type User } from "${ROOT}/gateway/gateway.js";
const settings: Settings = { stores: [{ name: "s1", host: "127.0.0.1", port: 7000 }], data: "data", origins: ["https://notes.example"] };
const gateway = await createGateway({
  ...settings,
  authorize: ({ headers }): User | null => (typeof headers.cookie === "string" ? { id: headers.cookie, name: "Ann" } : null),
  can: async (user: { id: string }, doc, action) => action === "read" || doc.startsWith(user.id),
  onCommand: ({ message }) => message.do !== "delete",
  onTaken: ({ doc, rev, isAgain }) => console.log(doc, rev, isAgain),
  log: ({ time, event }) => console.log(time, event),
});
gateway.closeUser("ann");
gateway.revoke("ann");
gateway.revoke("ann", "d");
const code: 4503 = CODE.full;
if (gateway.health().stores.s1) await gateway.close();
`;
const WRONG = [
  'await createGateway({});',
  'await createGateway({ ...settings, origin: "https://notes.example" });',
  'await createGateway({ ...settings, can: (user: any, doc: string, action: "write") => true });',
  'gateway.closeUser();',
  'await createGateway({ ...settings, onCommand: () => undefined });',
  'await createGateway({ ...settings, limits: { userName: 4 } });',
];

test("a strict program compiles, and wrong uses don't", needsTsc, (t) => {
  const folder = folderFor(t);
  const options = { strict: true, noEmit: true, target: "es2022", module: "es2022", moduleResolution: "node", types: [], lib: ["es2022", "dom"] };
  const compile = (name, text) => {
    writeFileSync(path.join(folder, name), text);
    writeFileSync(path.join(folder, "tsconfig.json"), JSON.stringify({ compilerOptions: options, files: [name] }));
    return spawnSync("tsc", ["-p", folder], { encoding: "utf8" }).stdout;
  };
  assert.equal(compile("right.ts", RIGHT), "");
  const first = RIGHT.split("\n").length;
  const said = compile("wrong.ts", RIGHT + WRONG.join("\n"));
  const lines = [...said.matchAll(/wrong\.ts\((\d+),\d+\): error/g)].map(([, line]) => Number(line));
  assert.deepEqual([...new Set(lines)], WRONG.map((_, index) => first + index), said);
});
