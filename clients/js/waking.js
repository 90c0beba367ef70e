// When a page may have a connection again: the network is back, or the page is shown again.

/**
 * Calls a function each time. Returns what ends that. Outside of a browser nothing calls it.
 * @param {() => void} wake
 * @returns {() => void}
 */
export function onWaking(wake) {
  const { document } = globalThis;
  const ending = new AbortController();
  const onShown = () => document.visibilityState === "visible" && wake();
  globalThis.addEventListener?.("online", wake, { signal: ending.signal });
  document?.addEventListener?.("visibilitychange", onShown, { signal: ending.signal });
  return () => ending.abort();
}
