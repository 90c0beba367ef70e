// The package ws. Debian's lies where a Node of another origin doesn't look.

import { createRequire } from "node:module";

/** @returns {any} */
export function webSockets() {
  const require = createRequire(import.meta.url);
  for (const name of ["ws", "/usr/share/nodejs/ws"]) {
    try {
      return require(name);
    } catch (error) {
      if (error.code !== "MODULE_NOT_FOUND") throw error;
    }
  }
  throw new Error("the package ws is missing: install Debian's node-ws, or npm's ws");
}
