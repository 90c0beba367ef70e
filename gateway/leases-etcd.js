// Leases of one store that are kept in etcd, so that a browser keeps its name where it comes to another gateway. Each gateway lends names of a
// pool of its own, and each step is one transaction that compares what it stands on. A lease says at which gateway it is used: that one alone
// asks it back before its term, for it knows what is on its way.

import { Lease, NAMING, choice } from "./leases.js";
import { NamesInUse, userOf } from "./names.js";

const MOST_TRIES = 10; // of a transaction that others were faster than
const MOST_KEPT = 100_000; // leases in memory; then those that were asked for longest ago are asked for anew

export class EtcdLeases {
  #etcd;
  #store;
  #pool;
  #first;
  #term;
  #now;
  #onLent;
  #at;
  #naming;
  #inUse;
  #began;
  #places;
  /** @type {Map<string, Lease>} `doc/holder` -> lease */
  #known = new Map();
  /** @type {Map<string, Promise<Lease | undefined>>} */
  #asked = new Map();

  /**
   * @param {{ etcd: import("./etcd.js").Etcd, store: string, pool: () => Promise<string[]>, first: number, term: number, now?: () => number,
   *   onLent?: (doc: string, lease: Lease) => void, at?: string, naming?: import("./leases.js").Naming, places?: import("./places.js").EtcdPlaces }} options  `at` is this gateway's name
   */
  constructor({ etcd, store, pool, first, term, now = Date.now, onLent = () => {}, at = "g", naming = NAMING, places }) {
    this.#places = places;
    this.#at = at;
    this.#naming = naming;
    this.#inUse = new NamesInUse({ most: naming.most, now });
    this.#began = now();
    this.#etcd = etcd;
    this.#store = store;
    this.#pool = pool;
    this.#first = first;
    this.#term = term;
    this.#now = now;
    this.#onLent = onLent;
  }

  /**
   * As `lend` of a file's leases; with `isNew` for a creation, whose place is written with the lease. A lease that was used of late needs no etcd.
   * @param {string} doc
   * @param {string} holder
   * @returns {Lease | undefined | Promise<Lease | undefined>}
   */
  lend(doc, holder, isNew = false) {
    return this.#find(doc, holder, true, isNew);
  }

  /** As `reserve` of a file's leases. */
  reserve(doc, holder) {
    return this.#find(doc, holder, false);
  }

  #find(doc, holder, isCommand, isNew = false) {
    const key = `${doc}/${holder}`;
    const known = this.#known.get(key);
    if (known !== undefined) known.seen = this.#now();
    if (known?.isReserved && !isCommand) return known;
    if (isCommand && known !== undefined && !this.#inUse.takes(holder, known)) return undefined;
    if (known !== undefined && !known.isReserved && !known.isAway && known.seen - known.used <= this.#term / 8) return known;
    const asked = `${isCommand} ${key}`;
    if (!this.#asked.has(asked)) {
      // what a holder asks for at the same time is done one after the other
      const before = this.#asked.get(`${!isCommand} ${key}`)?.catch(() => {});
      this.#asked.set(asked, (before ?? Promise.resolve()).then(() => this.#ask(doc, holder, isCommand, isNew)).finally(() => this.#asked.delete(asked)));
    }
    return this.#asked.get(asked);
  }

  has(doc, holder) {
    return this.#known.has(`${doc}/${holder}`);
  }

  async isHeld(doc, holder) {
    return (await this.#etcd.get(this.#key(doc, holder))) !== undefined;
  }

  /** Takes back a lease that was new, and under which nothing was taken; and with it the place of a document that isn't made. */
  release(doc, holder, lease, isNowhere) {
    const key = `${doc}/${holder}`;
    const place = isNowhere && lease.onWay === 0 ? this.#places?.disclaim(doc) : undefined;
    const isFree = lease.isUnused(isNowhere) && lease.mod !== undefined && this.#known.get(key) === lease;
    if (place) this.#places.disclaimed(doc);
    if (!isFree) {
      if (place) this.#etcd.transact([place.compare], place.remove).catch(() => {});
      return;
    }
    this.#known.delete(key);
    this.#takeBack(doc, holder, lease, place).catch(() => {}); // the next start sweeps it away
  }

  async #takeBack(doc, holder, lease, place) {
    const own = { key: this.#key(doc, holder), mod: lease.mod };
    const all = [{ key: own.key }, { key: this.#nameKey(doc, lease.name) }];
    if (place && (await this.#etcd.transact([own, place.compare], [...all, ...place.remove]))) return;
    await this.#etcd.transact([own], all); // the place is another creation's by now
  }

  own(doc, holder, lease) {
    if (lease.isOwn || lease.epoch === 1) return;
    lease.isOwn = true;
    this.#write(doc, holder, lease).catch(() => {}); // then it is asked for once more by the next gateway
  }

  // A browser that goes may come to another gateway, so its leases are asked for again.
  depart(holder, docs) {
    for (const doc of docs) {
      const key = `${doc}/${holder}`;
      const known = this.#known.get(key);
      if (known === undefined) continue;
      known.isAway = true;
      if (known.isReserved) this.#known.delete(key);
    }
  }

  /** Is called now and then. */
  tidy() {
    this.#inUse.tidy();
  }

  async close() {}

  async #write(doc, holder, lease) {
    const found = await this.#etcd.get(this.#key(doc, holder));
    if (found === undefined || !isSame(JSON.parse(found.value), lease)) return;
    const mod = await this.#etcd.transact([{ key: found.key, mod: found.mod }], [{ key: found.key, value: this.#kept(lease) }]);
    if (mod !== false && lease.mod === found.mod) lease.mod = mod;
  }

  async #ask(doc, holder, isCommand, isNew) {
    for (let tries = 0; tries < MOST_TRIES; tries += 1) {
      const under = `lease/${this.#store}/${doc}/`;
      const all = (await this.#etcd.under(under)).map(({ key, value, mod }) => ({ key, mod, holder: key.slice(under.length), ...JSON.parse(value) }));
      const own = all.find((lease) => lease.holder === holder);
      const lease = own === undefined ? await this.#lendNew(doc, holder, all, isCommand, isNew) : await this.#renew(doc, holder, own);
      if (lease === null) continue;
      return isCommand && lease !== undefined && !this.#inUse.takes(holder, lease) ? undefined : lease;
    }
    throw new Error(`no lease in ${doc}: others were faster each time`);
  }

  // The lease that is kept; null where it was changed meanwhile.
  async #renew(doc, holder, own) {
    const now = this.#now();
    const known = this.#known.get(`${doc}/${holder}`);
    const lease = known !== undefined && !known.isReserved && isSame(known, own) ? known : new Lease(own.name, own.epoch, own.used, own.isOwn);
    if (known?.isReserved) this.#naming.onRecall(doc, holder, holder); // he was told another name
    lease.used = own.used; // perhaps at another gateway
    lease.isAway = false;
    if (lease.mod !== own.mod) lease.next = undefined; // it may have been used there
    lease.mod = own.mod;
    if (now - own.used > this.#term / 8 || own.at !== this.#at) {
      const value = JSON.stringify({ ...kept(own), used: now, at: this.#at });
      const mod = await this.#etcd.transact([{ key: own.key, mod: own.mod }], [{ key: own.key, value }]);
      if (mod === false) return null;
      Object.assign(lease, { mod, used: now });
    }
    return this.#keep(doc, holder, lease);
  }

  // A new lease; undefined where there is none, null where others were faster.
  async #lendNew(doc, holder, all, isCommand, isNew) {
    const now = this.#now();
    const names = await this.#pool();
    const { recall, onRecall } = this.#naming;
    const reserved = this.#known.get(`${doc}/${holder}`);
    if (reserved?.isReserved) return this.#lendFree(doc, holder, reserved, isNew);
    const under = `${doc}/`;
    const user = userOf(holder);
    const taken = all.filter((it) => names.includes(it.name) || userOf(it.holder) === user).map((it) => {
      const { onWay = 0, seen = Math.max(it.used, this.#began) } = this.#known.get(under + it.holder) ?? {};
      const [isOver, isIdle] = [it.used < now - this.#term, it.at === this.#at && seen < now - recall];
      const mayGo = onWay === 0 && names.includes(it.name) && (isOver || it.at === this.#at);
      return [it.holder, { ...it, seen, mayGo, isOver: isOver || isIdle }];
    });
    for (const [key, lease] of this.#known) {
      if (lease.isReserved && key.startsWith(under)) taken.push([key.slice(under.length), { ...lease, mayGo: true, isOver: lease.seen < now - recall }]);
    }
    const only = this.#inUse.only(holder);
    const { free, old } = choice(taken, { doc, holder, isCommand, names, first: this.#first, naming: this.#naming, only });
    if (free === undefined && old === undefined) return undefined;
    if (free !== undefined || old[1].isReserved) {
      const lease = Object.assign(new Lease(free ?? old[1].name, 1, now), { next: 1, isReserved: !isCommand });
      if (old !== undefined) {
        this.#known.delete(under + old[0]);
        onRecall(doc, old[0], holder);
      }
      return isCommand ? this.#lendFree(doc, holder, lease, isNew) : this.#keep(doc, holder, lease);
    }
    const [from, { name, epoch, key: oldKey, mod }] = old;
    const lease = new Lease(name, epoch + 1, now);
    const key = this.#key(doc, holder);
    onRecall(doc, from, holder);
    const written = await this.#etcd.transact([{ key }, { key: oldKey, mod }], [{ key: oldKey }, { key, value: this.#kept(lease) }]);
    if (written === false) return null;
    lease.mod = written;
    this.#known.delete(under + from);
    return this.#lent(doc, holder, lease);
  }

  // Lends a name that nobody had in a document, with the place of one that is new, in one transaction.
  async #lendFree(doc, holder, lease, isNew) {
    const key = this.#key(doc, holder);
    const nameKey = this.#nameKey(doc, lease.name); // a name is new in a document once
    const place = isNew ? await this.#places?.claim(doc, this.#store) : undefined;
    const compare = [{ key }, { key: nameKey }, ...(place ? [place.compare] : [])];
    const put = [{ key, value: this.#kept(lease) }, { key: nameKey, value: holder }, ...(place ? place.put : [])];
    const mod = await this.#etcd.transact(compare, put);
    if (mod === false) {
      if (this.#known.get(`${doc}/${holder}`) === lease) this.#known.delete(`${doc}/${holder}`);
      if (lease.isTold) this.#naming.onRecall(doc, holder, holder); // he was told a name that he doesn't get
      return null;
    }
    if (place) this.#places.claimed(doc, this.#store, mod);
    Object.assign(lease, { isReserved: false, mod });
    return this.#lent(doc, holder, lease);
  }

  #kept(lease) {
    return JSON.stringify({ ...kept(lease), at: this.#at });
  }

  #lent(doc, holder, lease) {
    this.#onLent(doc, lease);
    return this.#keep(doc, holder, lease);
  }

  #keep(doc, holder, lease) {
    const key = `${doc}/${holder}`;
    this.#known.delete(key);
    this.#known.set(key, lease);
    if (this.#known.size > MOST_KEPT) {
      for (const [other, { onWay }] of this.#known) {
        if (onWay > 0) continue;
        this.#known.delete(other);
        break;
      }
    }
    return lease;
  }

  #nameKey(doc, name) {
    return `name/${this.#store}/${doc}/${name}`;
  }

  #key(doc, holder) {
    return `lease/${this.#store}/${doc}/${holder}`;
  }
}

const kept = ({ name, epoch, used, isOwn }) => ({ name, epoch, used, isOwn });
const isSame = (one, other) => one.name === other.name && one.epoch === other.epoch;
