// The program that is tested against, and what the tests run of it.

import { execFileSync, spawn } from "node:child_process";
import { once } from "node:events";
import { accessSync, constants, mkdtempSync, rmSync } from "node:fs";
import os from "node:os";
import path from "node:path";
import { createInterface } from "node:readline";
import { fileURLToPath } from "node:url";

export const ROOT = path.resolve(path.dirname(fileURLToPath(import.meta.url)), "../../..");
export const RICHD = process.env.RICHD ?? path.join(ROOT, "crates/richd/out/richd");

function isThere() {
  try {
    accessSync(RICHD, constants.X_OK);
    return true;
  } catch {
    return false;
  }
}

const MISSING = `${RICHD} isn't there: ./demo builds it, or name another program in RICHD`;
if (process.env.RICHD !== undefined && !isThere()) throw new Error(MISSING);

/** What a test that runs the program is given as its options. */
export const needsRichd = { skip: isThere() ? false : MISSING };

/** A store in a folder of its own, and servers over it, until the test ends. */
export class Store {
  #folder = mkdtempSync(path.join(os.tmpdir(), "richd-js-"));
  #server;

  constructor(test, ...shape) {
    this.path = path.join(this.#folder, "store");
    execFileSync(RICHD, ["format", this.path, ...shape]);
    test.after(async () => {
      await this.kill();
      rmSync(this.#folder, { recursive: true });
    });
  }

  /** Serves it over TCP, on a free port or on one that is named. */
  async serve(port = 0) {
    this.#server = spawn(RICHD, ["serve", this.path, "--listen", `127.0.0.1:${port}`], { stdio: ["ignore", "pipe", "inherit"] });
    const [line] = await once(createInterface({ input: this.#server.stdout }), "line");
    return { host: "127.0.0.1", port: Number(line.split(":").at(-1)) };
  }

  async kill() {
    if (this.#server === undefined) return;
    const server = this.#server;
    this.#server = undefined;
    server.kill("SIGKILL");
    await once(server, "exit");
  }

  /** The documents that the program prints: name, revision and operations. */
  dump() {
    const lines = execFileSync(RICHD, ["dump", this.path], { encoding: "utf8" }).split("\n").filter(Boolean);
    return lines.map((line) => {
      const [, doc, rev, document] = /^(\S+) (\d+) \d+ (.*)$/.exec(line);
      return { doc, rev: Number(rev), ops: JSON.parse(document).ops };
    });
  }
}
