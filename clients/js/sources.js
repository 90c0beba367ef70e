// Names of sources. A document has places for so many of them in all its life, so a browser uses its own again.

const BROWSER = "richd.browser"; // where the name of the browser is kept
const TAB = "richd.tab"; // where a tab keeps the sources that it had

/**
 * @typedef {object} Names  what of `localStorage` and of `sessionStorage` is used
 * @property {(key: string) => string | null} getItem
 * @property {(key: string, value: string) => void} setItem
 *
 * @typedef {object} Locks  what of `navigator.locks` is used
 * @property {(name: string, options: { ifAvailable?: boolean }, held: (lock: any) => Promise<any> | undefined) => Promise<any>} request
 *
 * @typedef {object} Page  what a page has that names its source
 * @property {Names} browser  lasts, and is the same for all pages
 * @property {Names} tab  lasts as long as the tab, and over a reload
 * @property {Locks} locks
 *
 * @typedef {object} Taken
 * @property {string} source
 * @property {boolean} isNew  nobody had it before
 * @property {boolean} lasts  it can be taken again once the page is gone
 * @property {() => void} release
 */

/** The Web Crypto of the platform. Node 18 has it in a module alone, whose name a bundler for browsers doesn't follow. */
async function webCrypto() {
  if (globalThis.crypto !== undefined) return globalThis.crypto;
  const name = "node:crypto";
  return (await import(/* webpackIgnore: true */ /* @vite-ignore */ name)).webcrypto;
}

/** A name that nobody has. */
async function newName() {
  const bytes = (await webCrypto()).getRandomValues(new Uint8Array(12));
  return "js-" + [...bytes].map((byte) => byte.toString(16).padStart(2, "0")).join("");
}

/** What the page has, or undefined: outside of a page, where its origin isn't secure, or where its user lets it keep nothing. */
export function thisPage() {
  try {
    const { document, localStorage, sessionStorage, navigator } = globalThis;
    if (document === undefined || navigator.locks === undefined) return undefined;
    return { browser: localStorage, tab: sessionStorage, locks: navigator.locks };
  } catch {
    return undefined; // they throw where storage is forbidden
  }
}

/**
 * Takes a source where no other page has it. Returns what gives it back, or undefined.
 * @param {Locks} locks
 * @param {string} source
 * @returns {Promise<(() => void) | undefined>}
 */
export function lock(locks, source) {
  return new Promise((resolve, reject) => {
    const held = (/** @type {any} */ lock) => {
      if (lock !== null) return new Promise((release) => resolve(() => release(undefined)));
      resolve(undefined);
    };
    locks.request(`richd ${source}`, { ifAvailable: true }, held).catch(reject);
  });
}

/**
 * The name of the browser, which is made up once. Two pages that are loaded at the same time for the first time find the same one.
 * @param {Page} page
 */
async function browserName({ browser, locks }) {
  const name = await newName();
  let found = /** @type {string | null} */ (null);
  await locks.request(BROWSER, {}, async () => {
    found = browser.getItem(BROWSER);
    if (found === null) browser.setItem(BROWSER, name);
  });
  return { name: found ?? name, isNew: found === null };
}

/** @param {Page} page @returns {Promise<Taken>} */
async function takeBrowsers(page) {
  const { name, isNew } = await browserName(page);
  /** @returns {string[]} */
  const hadByTab = () => JSON.parse(page.tab.getItem(TAB) ?? "[]").filter((/** @type {string} */ source) => source.startsWith(name));
  const had = hadByTab();
  for (let k = 0; ; k += 1) {
    const source = had[k] ?? `${name}-${k - had.length}`;
    const release = await lock(page.locks, source);
    if (release === undefined) continue;
    page.tab.setItem(TAB, JSON.stringify([...new Set([...hadByTab(), source])]));
    return { source, isNew, lasts: true, release };
  }
}

/**
 * Takes a name for a client that was given none. In a page it is one of the browser's, `<random>-<k>`: one that this tab had before, else
 * that of the first k that no other client has. Where that can't be, it is a new name.
 * @param {Page} [page]
 * @returns {Promise<Taken>}
 */
export async function takeSource(page) {
  try {
    if (page !== undefined) return await takeBrowsers(page);
  } catch {
    // what is kept can't be read or written
  }
  return { source: await newName(), isNew: true, lasts: false, release: () => {} };
}
