// What tells events that are known by name.

/**
 * An EventTarget whose events are named, each with its class.
 * @template {{ [name: string]: Event }} Named
 */
export class Emitter extends EventTarget {
  /**
   * @template {keyof Named & string} Name
   * @param {Name} name
   * @param {((event: Named[Name]) => void) | { handleEvent: (event: Named[Name]) => void } | null} listener
   * @param {boolean | { capture?: boolean, once?: boolean, passive?: boolean, signal?: AbortSignal }} [options]
   * @returns {void}
   */
  addEventListener(name, listener, options) {
    super.addEventListener(name, /** @type {any} */ (listener), options);
  }

  /**
   * @template {keyof Named & string} Name
   * @param {Name} name
   * @param {((event: Named[Name]) => void) | { handleEvent: (event: Named[Name]) => void } | null} listener
   * @param {boolean | { capture?: boolean }} [options]
   * @returns {void}
   */
  removeEventListener(name, listener, options) {
    super.removeEventListener(name, /** @type {any} */ (listener), options);
  }
}
