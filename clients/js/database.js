// What pages of one origin keep, in IndexedDB.

const TABLE = "kept";

/** @param {IDBRequest} request @returns {Promise<any>} */
function settled(request) {
  return new Promise((resolve, reject) => {
    request.onsuccess = () => resolve(request.result);
    request.onerror = () => reject(request.error);
  });
}

/**
 * Opens the database of the pages, or throws where the browser gives none.
 * @param {IDBFactory} indexedDB
 * @returns {Promise<import("./keeping.js").Store>}
 */
export async function openDatabase(indexedDB) {
  const opening = indexedDB.open("richd", 1);
  opening.onupgradeneeded = () => opening.result.createObjectStore(TABLE);
  /** @type {IDBDatabase} */
  const database = await settled(opening);
  const table = () => database.transaction(TABLE).objectStore(TABLE);
  return {
    get: (key) => settled(table().get(key)),
    keys: async () => /** @type {any} */ (await settled(table().getAllKeys())),
    put: (pairs, dropped = []) =>
      new Promise((resolve, reject) => {
        const transaction = database.transaction(TABLE, "readwrite", { durability: "strict" });
        transaction.oncomplete = () => resolve();
        transaction.onabort = () => reject(transaction.error);
        const kept = transaction.objectStore(TABLE);
        for (const [key, value] of pairs) kept.put(value, key);
        for (const key of dropped) kept.delete(key);
      }),
  };
}
