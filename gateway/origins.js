// Which pages may connect. A browser lets any page open a WebSocket anywhere, and says whose page it is.

import net from "node:net";

const OWN = new Set(["localhost", "127.0.0.1", "[::1]"]);

/** The name or address in a `Host`, without its port. */
const nameIn = (host) => host.replace(/:\d+$/, "").toLowerCase();

/**
 * Whether a request comes from a page that may. A program names no origin, and isn't asked here. Without a list a page has to be this
 * server's own, by a name of this machine: a name from elsewhere may lead here too.
 * @param {{ headers: import("node:http").IncomingHttpHeaders }} request
 * @param {string[]} [origins]
 */
export function isAllowedOrigin({ headers: { origin, host } }, origins) {
  if (origin === undefined) return true;
  if (origins !== undefined) return origins.includes(origin);
  if (host === undefined || !OWN.has(nameIn(host))) return false;
  return [`http://${host}`, `https://${host}`].includes(origin);
}

/**
 * Whether a request asks by a name of this server. A page from elsewhere may ask by a name of its own that leads here, never by an address; a
 * request without a Host is no browser's.
 * @param {{ headers: import("node:http").IncomingHttpHeaders }} request
 * @param {{ origins?: string[], hosts?: string[] }} known
 */
export function isKnownHost({ headers: { host } }, { origins = [], hosts = [] }) {
  if (host === undefined) return true;
  const name = nameIn(host);
  if (OWN.has(name) || net.isIP(name.replace(/^\[(.*)\]$/, "$1")) !== 0) return true;
  return origins.some((origin) => nameIn(new URL(origin).host) === name) || hosts.some((it) => it.toLowerCase() === name);
}
