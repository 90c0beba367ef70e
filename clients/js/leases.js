// The name under which a source's commands on a document are numbered: its own, or one that a gateway lends.

/**
 * @typedef {object} Lease
 * @property {string} name
 * @property {number} epoch  for the how manieth time a gateway lends the name for the document; 0 of a source's own name, which is never lent
 */

/** @param {Lease | undefined} one @param {Lease | undefined} other */
export const areSame = (one, other) => one !== undefined && one.name === other?.name && one.epoch === other.epoch;
