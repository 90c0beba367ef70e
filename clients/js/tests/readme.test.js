// The lines of README.md do what they say.

import assert from "node:assert/strict";
import { execFile } from "node:child_process";
import { existsSync, readFileSync, rmSync, writeFileSync } from "node:fs";
import path from "node:path";
import test from "node:test";
import { promisify } from "node:util";
import { ROOT, Store, needsRichd } from "./program.js";

/** The indented lines of a page that import the client. */
function programOf(page) {
  const text = readFileSync(path.join(ROOT, page), "utf8");
  const found = /^ {4}import \{ connect \}[^]*?(?=^\S)/m.exec(text);
  return found?.[0].replace(/^ {4}/gm, "");
}

for (const page of ["README.md", "clients/js/README.md"]) {
  const program = programOf(page);
  if (program === undefined && page === "README.md") continue; // not every page has to show one
  test(page, needsRichd, async (t) => {
    const { port } = await new Store(t).serve();
    const file = path.join(ROOT, `readme-${process.pid}.mjs`);
    t.after(() => existsSync(file) && rmSync(file));
    writeFileSync(file, program.replace("7000", String(port)));
    const { stdout } = await promisify(execFile)(process.execPath, [file], { cwd: ROOT });
    assert.equal(stdout, `2 [
  { insert: 'Hello' },
  { insert: ' world', attributes: { bold: true } },
  { insert: '\\n' }
]
`);
  });
}
