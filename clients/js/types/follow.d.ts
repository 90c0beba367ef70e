/**
 * @param {import("./richd.js").Client} client
 * @param {string} doc
 * @param {number} fromRev
 * @param {AbortSignal} [signal]
 * @returns {AsyncGenerator<{ rev: number, ops: import("./delta.js").Op[] }, void, void>}
 */
export function follow(client: import("./richd.js").Client, doc: string, fromRev: number, signal?: AbortSignal | undefined): AsyncGenerator<{
    rev: number;
    ops: import("./delta.js").Op[];
}, void, void>;
