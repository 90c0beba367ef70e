// What creations have left in etcd that were never made: places, leases and names of documents that their store doesn't have. They are looked at
// once as a gateway begins, and what is still so a while later is removed: meanwhile a creation that is on its way has its reply.

const PAGE = 200; // keys that are read at once
const PAUSE = 20; // milliseconds between two questions to stores
const WAIT = 60_000; // milliseconds between the two looks

const pause = (milliseconds) => new Promise((resolve) => setTimeout(resolve, milliseconds).unref());

/** All keys that begin with a text, with the revisions that wrote them. */
async function* keysUnder(etcd, text) {
  for (let after = ""; ; ) {
    const found = await etcd.under(text, { after, limit: PAGE, keysOnly: true });
    for (const { key, mod } of found) yield { rest: key.slice(text.length), mod };
    if (found.length < PAGE) return;
    after = found.at(-1).key.slice(text.length);
  }
}

export class Sweep {
  #etcd;
  #stores;
  #wait;
  #pause;
  #isEnded = false;
  #makers = new Map(); // document -> keys that say who created it

  /**
   * @param {{ etcd: import("./etcd.js").Etcd, stores: Map<string, { standing: (doc: string, wanted: () => boolean) => Promise<string> }>, wait?: number,
   *   pause?: number }} options
   */
  constructor({ etcd, stores, wait = WAIT, pause: between = PAUSE }) {
    this.#etcd = etcd;
    this.#stores = stores;
    this.#wait = wait;
    this.#pause = between;
  }

  end() {
    this.#isEnded = true;
  }

  /** Gives how many documents' rests were removed. */
  async run() {
    const first = await this.#look();
    if (first.size === 0) return 0;
    await pause(this.#wait);
    let removed = 0;
    for (const [rest, mod] of first) {
      if (this.#isEnded) break;
      const at = rest.indexOf("/");
      const [store, doc] = [rest.slice(0, at), rest.slice(at + 1)];
      const place = await this.#etcd.get(`place/${doc}`);
      if ((place?.value === store ? place.mod : "") !== mod || !(await this.#isNowhere(store, doc))) continue;
      if (mod !== "" && !(await this.#etcd.transact([{ key: place.key, mod }], [{ key: place.key }]))) continue;
      for (const kind of ["lease", "name"]) await this.#etcd.removeUnder(`${kind}/${store}/${doc}/`);
      if (mod !== "") await this.#etcd.transact([], (this.#makers.get(doc) ?? []).map((key) => ({ key })));
      removed += 1;
    }
    return removed;
  }

  // `store/document` of all rests, with the revision of the place, or an empty text where the place is another.
  async #look() {
    const rests = new Map();
    const seen = new Set();
    for await (const { rest: doc, mod } of keysUnder(this.#etcd, "place/")) {
      const place = await this.#etcd.get(`place/${doc}`);
      if (place === undefined) continue;
      const key = `${place.value}/${doc}`;
      seen.add(key);
      if (await this.#isNowhere(place.value, doc)) rests.set(key, mod);
      if (this.#isEnded) return new Map();
    }
    const docs = new Set([...rests.keys()].map((key) => key.slice(key.indexOf("/") + 1)));
    for await (const { rest } of keysUnder(this.#etcd, "maker/")) {
      const doc = rest.slice(rest.indexOf("/") + 1);
      if (docs.has(doc)) this.#makers.set(doc, [...(this.#makers.get(doc) ?? []), `maker/${rest}`]);
    }
    for (const kind of ["lease/", "name/"]) {
      for await (const { rest } of keysUnder(this.#etcd, kind)) {
        const [store, doc] = rest.split("/");
        const key = `${store}/${doc}`;
        if (seen.has(key)) continue;
        seen.add(key);
        if (await this.#isNowhere(store, doc)) rests.set(key, "");
        if (this.#isEnded) return new Map();
      }
    }
    return rests;
  }

  // Whether a store says that it has no such document. Where it can't be asked it may have it.
  async #isNowhere(name, doc) {
    await pause(this.#pause);
    const store = this.#stores.get(name);
    if (store === undefined) return false;
    return (await store.standing(doc, () => !this.#isEnded).catch(() => "there")) === "nowhere";
  }
}
