/** What the page has, or undefined: outside of a page, where its origin isn't secure, or where its user lets it keep nothing. */
export function thisPage(): {
    browser: Storage;
    tab: Storage;
    locks: LockManager;
} | undefined;
/**
 * Takes a source where no other page has it. Returns what gives it back, or undefined.
 * @param {Locks} locks
 * @param {string} source
 * @returns {Promise<(() => void) | undefined>}
 */
export function lock(locks: Locks, source: string): Promise<(() => void) | undefined>;
/**
 * Takes a name for a client that was given none. In a page it is one of the browser's, `<random>-<k>`: one that this tab had before, else
 * that of the first k that no other client has. Where that can't be, it is a new name.
 * @param {Page} [page]
 * @returns {Promise<Taken>}
 */
export function takeSource(page?: Page | undefined): Promise<Taken>;
/**
 * what of `localStorage` and of `sessionStorage` is used
 */
export type Names = {
    getItem: (key: string) => string | null;
    setItem: (key: string, value: string) => void;
};
/**
 * what of `navigator.locks` is used
 */
export type Locks = {
    request: (name: string, options: {
        ifAvailable?: boolean;
    }, held: (lock: any) => Promise<any> | undefined) => Promise<any>;
};
/**
 * what a page has that names its source
 */
export type Page = {
    /**
     * lasts, and is the same for all pages
     */
    browser: Names;
    /**
     * lasts as long as the tab, and over a reload
     */
    tab: Names;
    locks: Locks;
};
export type Taken = {
    source: string;
    /**
     * nobody had it before
     */
    isNew: boolean;
    /**
     * it can be taken again once the page is gone
     */
    lasts: boolean;
    release: () => void;
};
