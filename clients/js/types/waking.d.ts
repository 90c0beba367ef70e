/**
 * Calls a function each time. Returns what ends that. Outside of a browser nothing calls it.
 * @param {() => void} wake
 * @returns {() => void}
 */
export function onWaking(wake: () => void): () => void;
