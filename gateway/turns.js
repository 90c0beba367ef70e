// What waits for something that is scarce, by turns of users: nobody waits behind all that another one has sent.

/** @template Item */
export class Turns {
  /** @type {Map<string, Item[]>} those of a user in their order; the users in the order of their turns */
  #users = new Map();

  get isEmpty() {
    return this.#users.size === 0;
  }

  /** How many users wait. */
  get users() {
    return this.#users.size;
  }

  /** @param {string} user @param {Item} item */
  add(user, item) {
    const items = this.#users.get(user);
    if (items === undefined) this.#users.set(user, [item]);
    else items.push(item);
  }

  /**
   * Takes out the first item of the next user for whose first item something holds; that user's next turn comes last.
   * @param {(item: Item) => boolean} fits
   * @returns {Item | undefined}
   */
  next(fits) {
    for (const [user, items] of this.#users) {
      if (!fits(items[0])) continue;
      this.#users.delete(user);
      const item = items.shift();
      if (items.length > 0) this.#users.set(user, items);
      return item;
    }
    return undefined;
  }

  /** The first item of each user. @returns {Item[]} */
  first() {
    return [...this.#users.values()].map(([item]) => item);
  }
}
