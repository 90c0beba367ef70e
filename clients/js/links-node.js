// The links that Node has and a browser hasn't: over TCP, and over the pipes of a program.

import { spawn } from "node:child_process";
import net from "node:net";
import { RichdError } from "./errors.js";
import { setNodeLinks } from "./links.js";

/**
 * @typedef {import("./links.js").Link} Link
 * @typedef {import("./links.js").Listener} Listener
 */

/** @param {import("./links.js").TcpAddress} address @param {Listener} listener @param {number} patience @returns {Promise<Link>} */
async function openSocket({ host = "127.0.0.1", port }, { onBytes, onClose }, patience) {
  const socket = net.connect({ host, port, noDelay: true });
  const timer = setTimeout(() => socket.destroy(new Error(`no connection to ${host}:${port}`)), patience);
  await opening(socket, "connect").finally(() => clearTimeout(timer));
  /** @type {Error | undefined} */
  let cause;
  let isCut = false;
  socket.on("error", (/** @type {Error} */ error) => (cause = error));
  socket.on("data", onBytes);
  socket.on("close", () => onClose(socket.bytesRead === 0 && !isCut ? new RichdError(0, "Full", cause) : cause));
  const cut = () => {
    isCut = true;
    socket.destroy();
  };
  return { send: (bytes) => socket.write(bytes), end: () => socket.end(), cut };
}

/** @param {import("./links.js").ProgramAddress} address @param {Listener} listener @returns {Promise<Link>} */
async function openPipes({ command, args = [] }, { onBytes, onClose }) {
  const program = spawn(command, args, { stdio: ["pipe", "pipe", "inherit"] });
  await opening(program, "spawn");
  program.stdin.on("error", () => {}); // a pipe that broke shows at the end of the output
  program.stdout.on("data", onBytes);
  program.on("close", () => onClose());
  return { send: (bytes) => program.stdin.write(bytes), end: () => program.stdin.end(), cut: () => program.kill() };
}

/**
 * Waits until a stream or a program is there; throws its error where that comes instead.
 * @param {any} emitter
 * @param {string} event
 * @returns {Promise<void>}
 */
function opening(emitter, event) {
  return new Promise((resolve, reject) => {
    emitter.once("error", reject);
    emitter.once(event, () => {
      emitter.off("error", reject);
      emitter.on("error", () => {});
      resolve();
    });
  });
}

setNodeLinks((address, listener, patience) =>
  address.command !== undefined ? openPipes(address, listener) : openSocket(address, listener, patience),
);
