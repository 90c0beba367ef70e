// The revisions of a document, one after the other.

const MOST_WAITING = 1_000; // revisions that came, and weren't asked for yet; then it follows anew once they are

/**
 * @param {import("./richd.js").Client} client
 * @param {string} doc
 * @param {number} fromRev
 * @param {AbortSignal} [signal]
 * @returns {AsyncGenerator<{ rev: number, ops: import("./delta.js").Op[] }, void, void>}
 */
export async function* follow(client, doc, fromRev, signal) {
  /** @type {{ rev: number, ops: import("./delta.js").Op[] }[]} */
  const arrived = [];
  let last = fromRev; // that arrived
  let wake = () => {};
  /** @type {any} */
  let failure;
  /** @param {Error} error */
  const end = (error) => {
    failure ??= error;
    wake();
  };
  /** @param {import("./delta.js").Op[]} ops @param {number} rev */
  const onNews = (ops, rev) => {
    arrived.push({ rev, ops });
    last = rev;
    if (arrived.length === MOST_WAITING) stop();
    wake();
  };
  /** @type {(() => void) | undefined} */
  let leave;
  const stop = () => {
    leave?.();
    leave = undefined;
  };
  const abort = () => end(signal.reason);
  signal?.addEventListener("abort", abort);
  if (signal?.aborted) abort();
  try {
    for (;;) {
      while (arrived.length > 0) yield arrived.shift();
      if (failure === undefined) leave ??= client.onNews(doc, { rev: last, onNews, onEnd: end });
      if (failure?.name === "Closed") return;
      if (failure !== undefined) throw failure;
      await new Promise((resolve) => (wake = () => resolve(undefined)));
    }
  } finally {
    signal?.removeEventListener("abort", abort);
    stop();
  }
}
