// How long something may take.

export const LONGEST = 2 ** 31 - 1; // milliseconds of a timer

/**
 * @typedef {object} Limits
 * @property {AbortSignal} [signal]  ends the call with the signal's reason
 * @property {number} [timeout]  milliseconds, `Infinity` for no end
 * @property {(error: import("./errors.js").RichdError) => void} [onRetry]  is called each time that the server had failed or had no memory, and
 *     what was asked will be sent again
 */

/**
 * What a promise comes to, unless the signal comes first, or the time ends.
 * @template T
 * @param {Promise<T>} promise
 * @param {Limits} limits
 * @param {() => Error} late  gives the error for the end of the time
 * @returns {Promise<T>}
 */
export function within(promise, { signal, timeout }, late) {
  /** @type {ReturnType<typeof setTimeout> | undefined} */
  let timer;
  /** @type {() => void} */
  let abort;
  const limited = new Promise((resolve, reject) => {
    if (Number.isFinite(timeout)) timer = setTimeout(() => reject(late()), Math.min(timeout, LONGEST));
    abort = () => reject(signal.reason);
    signal?.addEventListener("abort", abort);
    if (signal?.aborted) abort();
    promise.then(resolve, reject);
  });
  return limited.finally(() => {
    clearTimeout(timer);
    signal?.removeEventListener("abort", abort);
  });
}
