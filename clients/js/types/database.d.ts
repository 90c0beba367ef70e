/**
 * Opens the database of the pages, or throws where the browser gives none.
 * @param {IDBFactory} indexedDB
 * @returns {Promise<import("./keeping.js").Store>}
 */
export function openDatabase(indexedDB: IDBFactory): Promise<import("./keeping.js").Store>;
