/**
 * An EventTarget whose events are named, each with its class.
 * @template {{ [name: string]: Event }} Named
 */
export class Emitter<Named extends {
    [name: string]: Event;
}> extends EventTarget {
    constructor();
    /**
     * @template {keyof Named & string} Name
     * @param {Name} name
     * @param {((event: Named[Name]) => void) | { handleEvent: (event: Named[Name]) => void } | null} listener
     * @param {boolean | { capture?: boolean, once?: boolean, passive?: boolean, signal?: AbortSignal }} [options]
     * @returns {void}
     */
    addEventListener<Name extends keyof Named & string>(name: Name, listener: ((event: Named[Name]) => void) | {
        handleEvent: (event: Named[Name]) => void;
    } | null, options?: boolean | {
        capture?: boolean | undefined;
        once?: boolean | undefined;
        passive?: boolean | undefined;
        signal?: AbortSignal | undefined;
    } | undefined): void;
    /**
     * @template {keyof Named & string} Name
     * @param {Name} name
     * @param {((event: Named[Name]) => void) | { handleEvent: (event: Named[Name]) => void } | null} listener
     * @param {boolean | { capture?: boolean }} [options]
     * @returns {void}
     */
    removeEventListener<Name_1 extends keyof Named & string>(name: Name_1, listener: ((event: Named[Name_1]) => void) | {
        handleEvent: (event: Named[Name_1]) => void;
    } | null, options?: boolean | {
        capture?: boolean | undefined;
    } | undefined): void;
}
