// Streams of bytes to a server. A browser has WebSockets alone; what Node has besides stands in links-node.js.

import { RichdError } from "./errors.js";

/** What it means where a gateway closes a WebSocket by one of these codes. By any other, as 1012, one connects again. @type {Record<number, string>} */
const ENDS = { 4409: "Replaced", 4503: "Full" };

/**
 * Where a server is: one of the three.
 * @typedef {TcpAddress | ProgramAddress | WebSocketAddress} Address
 *
 * @typedef {object} TcpAddress  a server that listens, for Node
 * @property {string} [host]  127.0.0.1 if it isn't given
 * @property {number} port
 * @property {undefined} [command]
 * @property {undefined} [args]
 * @property {undefined} [url]
 *
 * @typedef {object} ProgramAddress  a program of one's own, for Node, as `richd serve STORE`
 * @property {string} command
 * @property {string[]} [args]
 * @property {undefined} [host]
 * @property {undefined} [port]
 * @property {undefined} [url]
 *
 * @typedef {object} WebSocketAddress  a gateway
 * @property {string | (() => string | Promise<string>)} url  a function is asked each time that it connects, as where a token in it has an end
 * @property {WebSocketClass} [WebSocket]  where there is no global one, as in Node 18 and 20
 * @property {undefined} [host]
 * @property {undefined} [port]
 * @property {undefined} [command]
 * @property {undefined} [args]
 *
 * @typedef {new (url: string) => WebSocketLike} WebSocketClass
 *
 * @typedef {object} WebSocketLike  what is used of a WebSocket
 * @property {any} binaryType
 * @property {any} onopen
 * @property {any} onmessage
 * @property {any} onerror
 * @property {any} onclose
 * @property {(bytes: Uint8Array) => void} send
 * @property {() => void} close
 *
 * @typedef {object} Listener  what is called for a link that is open
 * @property {(bytes: Uint8Array) => void} onBytes
 * @property {(cause?: Error) => void} onClose  once, at its end; the cause is "Full" where the server has no place, and "Replaced" where a gateway
 *     has another client of the same source
 *
 * @typedef {object} Link
 * @property {(bytes: Uint8Array) => void} send
 * @property {() => void} end  says that nothing more will be sent; the other end closes then
 * @property {() => void} cut  ends it at once
 *
 * @typedef {(address: any, listener: Listener, patience: number) => Promise<Link>} Opener
 */

/** @type {Opener | undefined} */
let openNodeLink;

/**
 * Says what opens the links that Node alone has.
 * @param {Opener} opener
 */
export function setNodeLinks(opener) {
  openNodeLink = opener;
}

// A bundler for browsers doesn't follow a name that it can't read.
async function loadNodeLinks() {
  if (!(/** @type {any} */ (globalThis).process?.versions?.node)) throw new TypeError("here are WebSockets alone: give a url");
  const name = "./links-node.js";
  await import(/* webpackIgnore: true */ /* @vite-ignore */ name);
}

/**
 * Opens a link, or throws what stood in the way.
 * @param {Address} address
 * @param {Listener} listener
 * @param {number} patience  milliseconds that it may take
 * @returns {Promise<Link>}
 */
export async function openLink(address, listener, patience) {
  if (address.url !== undefined) return openWebSocket(address, listener, patience);
  if (openNodeLink === undefined) await loadNodeLinks();
  return openNodeLink(address, listener, patience);
}

/** Asks for a URL that a function gives. Where it fails there is no connection, as where there is no server. @param {WebSocketAddress["url"]} url */
async function asked(url) {
  try {
    return typeof url === "function" ? await url() : url;
  } catch (cause) {
    throw new Error("no url was given", { cause });
  }
}

/** @param {WebSocketAddress} address @param {Listener} listener @param {number} patience @returns {Promise<Link>} */
async function openWebSocket({ url: given, WebSocket = globalThis.WebSocket }, { onBytes, onClose }, patience) {
  const url = await asked(given);
  const socket = new WebSocket(url);
  socket.binaryType = "arraybuffer";
  return new Promise((resolve, reject) => {
    let isOpen = false;
    const timer = setTimeout(() => socket.close(), patience);
    socket.onopen = () => {
      isOpen = true;
      clearTimeout(timer);
      resolve({ send: (bytes) => socket.send(bytes), end: () => socket.close(), cut: () => socket.close() });
    };
    socket.onmessage = (/** @type {{ data: ArrayBuffer }} */ { data }) => onBytes(new Uint8Array(data));
    socket.onerror = () => {}; // its close follows
    socket.onclose = (/** @type {{ code: number }} */ { code }) => {
      clearTimeout(timer);
      if (!isOpen) reject(new Error(`no WebSocket at ${url}`));
      else onClose(code in ENDS ? new RichdError(0, ENDS[code]) : undefined);
    };
  });
}
