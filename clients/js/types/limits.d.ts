/**
 * @typedef {object} Limits
 * @property {AbortSignal} [signal]  ends the call with the signal's reason
 * @property {number} [timeout]  milliseconds, `Infinity` for no end
 * @property {(error: import("./errors.js").RichdError) => void} [onRetry]  is called each time that the server had failed or had no memory, and
 *     what was asked will be sent again
 */
/**
 * What a promise comes to, unless the signal comes first, or the time ends.
 * @template T
 * @param {Promise<T>} promise
 * @param {Limits} limits
 * @param {() => Error} late  gives the error for the end of the time
 * @returns {Promise<T>}
 */
export function within<T>(promise: Promise<T>, { signal, timeout }: Limits, late: () => Error): Promise<T>;
export const LONGEST: number;
export type Limits = {
    /**
     * ends the call with the signal's reason
     */
    signal?: AbortSignal | undefined;
    /**
     * milliseconds, `Infinity` for no end
     */
    timeout?: number | undefined;
    /**
     * is called each time that the server had failed or had no memory, and
     * what was asked will be sent again
     */
    onRetry?: ((error: import("./errors.js").RichdError) => void) | undefined;
};
