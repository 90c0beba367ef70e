// The package: what it exports is there, and a bundle of it for browsers has nothing of Node's.

import assert from "node:assert/strict";
import { execFileSync, spawnSync } from "node:child_process";
import { existsSync, mkdirSync, mkdtempSync, readFileSync, rmSync, symlinkSync, writeFileSync } from "node:fs";
import os from "node:os";
import path from "node:path";
import test from "node:test";
import { ROOT } from "./program.js";

const CLIENT = path.join(ROOT, "clients/js");
const { exports, files, version } = JSON.parse(readFileSync(path.join(CLIENT, "package.json"), "utf8"));

/** A folder in which `richd` is a package, until the test ends. */
function project(t) {
  const folder = mkdtempSync(path.join(os.tmpdir(), "richd-js-"));
  t.after(() => rmSync(folder, { recursive: true }));
  mkdirSync(path.join(folder, "node_modules"));
  symlinkSync(CLIENT, path.join(folder, "node_modules/richd"));
  return folder;
}

test("each file that it exports is there, with its declarations", () => {
  for (const way of Object.values(exports)) for (const file of Object.values(way)) assert.ok(existsSync(path.join(CLIENT, file)), file);
  assert.deepEqual(files.filter((name) => !name.includes("*") && !existsSync(path.join(CLIENT, name))), []);
});

test("its version is the program's, and the newest in CHANGELOG.md", () => {
  const program = readFileSync(path.join(ROOT, "crates/words/src/invocation.rt"), "utf8");
  const changes = readFileSync(path.join(CLIENT, "CHANGELOG.md"), "utf8");
  assert.equal(version, /VERSION: &str = "(.*)"/.exec(program)[1]);
  assert.equal(version, /^## (\S+)/m.exec(changes)[1]);
});

test("a program imports it by its names", (t) => {
  const file = path.join(project(t), "program.mjs");
  const names = Object.keys(exports).map((name) => name.replace(/^\./, "richd"));
  writeFileSync(file, names.map((name) => `await import(${JSON.stringify(name)});`).join("\n") + 'console.log((await import("richd")).connect.name);');
  assert.equal(execFileSync(process.execPath, [file], { encoding: "utf8" }), "connect\n");
});

const hasBundler = spawnSync("esbuild", ["--version"]).status === 0;
const needsBundler = { skip: hasBundler ? false : "there is no esbuild" };

for (const platform of ["browser", "node"]) {
  test(`esbuild bundles it for ${platform === "node" ? "Node" : "browsers"} without a word`, needsBundler, (t) => {
    const folder = project(t);
    const file = path.join(folder, "program.js");
    const names = Object.keys(exports).filter((name) => platform === "node" || !name.startsWith("./bridge"));
    writeFileSync(file, names.map((name, index) => `export * as part${index} from "richd${name.slice(1)}";`).join("\n"));
    const options = ["--bundle", "--format=esm", `--platform=${platform}`, "--log-level=info", `--outfile=${file}.out.mjs`];
    const { status, stderr } = spawnSync("esbuild", [file, ...options], { encoding: "utf8" });
    assert.equal(status, 0, stderr);
    assert.doesNotMatch(stderr, /warning|error/i);
    const bundle = readFileSync(`${file}.out.mjs`, "utf8");
    assert.equal(/(?:from|import)\s*\(?"node:/.test(bundle), platform === "node");
    assert.equal(bundle.includes("net.connect("), platform === "node");
  });
}
