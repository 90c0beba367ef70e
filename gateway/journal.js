// A file of lines to which lines are added, each a text of JSON. What came together is synced together.

import { closeSync, fdatasyncSync, fsyncSync, openSync, readFileSync, renameSync, writeFileSync } from "node:fs";
import { open } from "node:fs/promises";
import path from "node:path";

/**
 * The values of a file's lines; none where there is no file. What stands behind the last line's end was never kept.
 * @param {string} file
 * @param {(value: any) => boolean} isRight  whether a value may stand there
 * @returns {{ values: any[], damaged: number }}  and how many lines are none
 */
export function readLines(file, isRight) {
  let text;
  try {
    text = readFileSync(file, "utf8");
  } catch (error) {
    if (error.code === "ENOENT") return { values: [], damaged: 0 };
    throw error;
  }
  const lines = text.split("\n").slice(0, -1).map(parsed);
  const values = lines.filter((value) => value !== undefined && isRight(value));
  return { values, damaged: lines.length - values.length };
}

function parsed(line) {
  try {
    return JSON.parse(line);
  } catch {
    return undefined;
  }
}

/** Writes a file anew, whole or not at all. Gives its length in bytes. */
function write(file, values) {
  const next = `${file}.new`;
  const descriptor = openSync(next, "w", 0o600);
  const bytes = Buffer.from(values.map((value) => JSON.stringify(value) + "\n").join(""));
  writeFileSync(descriptor, bytes);
  fdatasyncSync(descriptor);
  closeSync(descriptor);
  renameSync(next, file);
  const folder = openSync(path.dirname(file), "r");
  fsyncSync(folder);
  closeSync(folder);
  return bytes.length;
}

/** Writes all of some bytes at a place of a file. */
async function put(handle, bytes, place) {
  for (let done = 0; done < bytes.length; ) {
    const { bytesWritten } = await handle.write(bytes, done, bytes.length - done, place + done);
    if (bytesWritten === 0) throw new Error("nothing can be written");
    done += bytesWritten;
  }
}

export class Journal {
  #file;
  /** @type {{ text: string, resolve: () => void, reject: (error: Error) => void }[]} */
  #waiting = [];
  #isWriting = false;
  #isClosed = false;
  #handle;
  #length; // bytes of the lines that are kept
  #isTorn = false; // there may be something behind them, of a write that failed
  #open;
  #onFailure;
  /** @type {(() => void) | undefined} */
  #onDone;

  /**
   * @param {string} file
   * @param {any[]} values  what it begins with
   * @param {{ open?: (file: string, flags: string) => Promise<any>, onFailure?: (error: Error) => void }} [options]
   */
  constructor(file, values, { open: opened = open, onFailure = () => {} } = {}) {
    this.#file = file;
    this.#open = opened;
    this.#onFailure = onFailure;
    this.#length = write(file, values);
  }

  /**
   * Adds a line. It is on the disk when the promise is kept; where that fails nothing of it stays.
   * @param {any} value
   * @returns {Promise<void>}
   */
  add(value) {
    return new Promise((resolve, reject) => {
      if (this.#isClosed) return reject(new Error(`${this.#file} is closed`));
      this.#waiting.push({ text: JSON.stringify(value) + "\n", resolve, reject });
      this.#work();
    });
  }

  /** Ends once all is written. */
  async close() {
    if (this.#isClosed) return;
    this.#isClosed = true;
    if (this.#isWriting) await new Promise((resolve) => (this.#onDone = () => resolve(undefined)));
    await this.#handle?.close();
    this.#handle = undefined;
  }

  async #work() {
    if (this.#isWriting) return;
    this.#isWriting = true;
    while (this.#waiting.length > 0) {
      const batch = this.#waiting.splice(0);
      try {
        await this.#write(Buffer.from(batch.map(({ text }) => text).join("")));
        for (const { resolve } of batch) resolve();
      } catch (error) {
        await this.#takeBack().catch(() => {}); // then the next write does
        for (const { reject } of batch) reject(error);
        this.#onFailure(error);
      }
    }
    this.#isWriting = false;
    this.#onDone?.();
  }

  async #write(bytes) {
    this.#handle ??= await this.#open(this.#file, "r+");
    await this.#takeBack();
    this.#isTorn = true;
    await put(this.#handle, bytes, this.#length);
    await this.#handle.datasync();
    this.#isTorn = false;
    this.#length += bytes.length;
  }

  async #takeBack() {
    if (!this.#isTorn) return;
    await this.#handle.truncate(this.#length);
    await this.#handle.datasync();
    this.#isTorn = false;
  }
}
