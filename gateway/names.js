// Under how many names of one store a user sends at a time, whatever the documents.

const USED = 2_000; // milliseconds that a name counts as used after its last command has left
const MANY = 64; // leases under a name; then those are left out that have nothing on its way

/** The user of a holder: a token has no stroke. @param {string} holder */
export function userOf(holder) {
  const at = holder.lastIndexOf("/");
  return at === -1 ? holder : holder.slice(0, at);
}

/** @typedef {{ leases: Set<import("./leases.js").Lease>, seen: number }} Use  leases under a name, and when it was used last */

export class NamesInUse {
  #most;
  #now;
  /** @type {Map<string, Map<string, Use>>} user -> name -> its use */
  #users = new Map();

  /** @param {{ most: number, now: () => number }} options  `most` names of a user at a time */
  constructor({ most, now }) {
    this.#most = most;
    this.#now = now;
  }

  /** The only names under which a holder's user may send now, where he sends under as many as he may. @param {string} holder */
  only(holder) {
    const names = this.#users.get(userOf(holder));
    if (names === undefined || names.size < this.#most) return undefined;
    for (const [name, use] of names) if (this.#isOver(use)) names.delete(name);
    return names.size < this.#most ? undefined : [...names.keys()];
  }

  /** Whether a holder may send under a lease now: its name is in use from then on. @param {string} holder @param {import("./leases.js").Lease} lease */
  takes(holder, lease) {
    if (this.#most === Infinity) return true;
    const only = this.only(holder);
    if (only !== undefined && !only.includes(lease.name)) return false;
    const user = userOf(holder);
    if (!this.#users.has(user)) this.#users.set(user, new Map());
    const names = this.#users.get(user);
    if (!names.has(lease.name)) names.set(lease.name, { leases: new Set(), seen: 0 });
    const use = names.get(lease.name);
    if (use.leases.size >= MANY) for (const it of use.leases) if (it.onWay === 0) use.leases.delete(it);
    use.leases.add(lease);
    use.seen = this.#now();
    return true;
  }

  /** Forgets what isn't used any more. */
  tidy() {
    for (const [user, names] of this.#users) {
      for (const [name, use] of names) if (this.#isOver(use)) names.delete(name);
      if (names.size === 0) this.#users.delete(user);
    }
  }

  #isOver({ leases, seen }) {
    if (seen > this.#now() - USED) return false;
    for (const { onWay } of leases) if (onWay > 0) return false;
    return true;
  }
}
