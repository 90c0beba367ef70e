// A folder belongs to one gateway at a time: two would lend the same names.

import { rmSync } from "node:fs";
import net from "node:net";
import path from "node:path";

/** @param {string} file @returns {Promise<boolean>} whether somebody answers there */
function isAnswered(file) {
  return new Promise((resolve) => {
    const socket = net.connect(file);
    socket.on("connect", () => {
      socket.destroy();
      resolve(true);
    });
    socket.on("error", () => resolve(false));
  });
}

/**
 * Takes a folder, or throws where another process has it. Gives what gives it back. The system itself does where this process ends.
 * @param {string} folder
 * @returns {Promise<() => void>}
 */
export async function lock(folder) {
  const file = path.join(folder, "lock");
  const taken = () => new Error(`${folder} is another gateway's that runs: each has a folder of its own`);
  const server = net.createServer((socket) => socket.destroy());
  const listen = () =>
    new Promise((resolve, reject) => {
      server.once("error", reject);
      server.listen(file, () => {
        server.off("error", reject);
        resolve(undefined);
      });
    });
  try {
    await listen();
  } catch (error) {
    if (error.code !== "EADDRINUSE") throw new Error(`${folder} can't be taken: ${error.message}`);
    if (await isAnswered(file)) throw taken();
    rmSync(file); // of a process that is gone
    await listen();
  }
  server.unref();
  return () => server.close();
}
