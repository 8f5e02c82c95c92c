/**
 * Storages: where a client keeps documents and pending edits between starts.
 * @module
 */
import { Keeper, documentsOf } from './keeper.js';

/**
 * What a storage does. Keys and texts are strings.
 * @typedef {object} StorageMethods
 * @property {(front: string) => Promise<string[]>} keys the keys that start with a text
 * @property {(front: string) => Promise<Array<[string, string]>>} read the same with their texts, in ascending order
 * @property {(changes: Array<[string, string | null]>) => Promise<void>} write sets the texts of keys, and removes
 *   keys whose text is null. All are made or none is, and they are durable once the promise is fulfilled
 * @property {(name: string) => Promise<(() => void) | null>} lock acquires a lock, and returns a function that releases
 *   it, or null if any client has it. The end of a page or a process releases its locks
 */
/** @typedef {import('./connection.js').ClientStorage} ClientStorage */

/**
 * Makes a storage of its methods.
 * @param {StorageMethods} methods
 * @returns {ClientStorage}
 */
export function customStorage(methods) {
  const keeperFor = (connection) => new Keeper(methods, connection);
  return /** @type {any} */ ({ documents: () => documentsOf(methods), _keeperFor: keeperFor });
}

/**
 * Keeps documents in a database of the browser, for all pages of one origin. A page of http has it on localhost only.
 * @param {string} name of the database
 * @returns {ClientStorage}
 */
export function indexedDbStorage(name) {
  return customStorage(new Database(name));
}

const STORE = 'texts'; // { key, text }

function settled(request, done = 'onsuccess', failed = 'onerror') {
  return new Promise((resolve, reject) => {
    request[done] = () => resolve(request.result);
    request[failed] = () => reject(request.error);
  });
}

function rangeOf(front) {
  return globalThis.IDBKeyRange.bound(front, `${front}\uffff`);
}

class Database {
  constructor(name) {
    this.name = name;
    this.opened = null;
  }

  open() {
    const request = globalThis.indexedDB.open(this.name, 1);
    request.onupgradeneeded = () => request.result.createObjectStore(STORE, { keyPath: 'key' });
    return settled(request);
  }

  // (a database that the user removes is closed, and opened again by the next call)
  async transaction(mode, options) {
    try {
      this.opened = this.opened || this.open();
      return (await this.opened).transaction(STORE, mode, options);
    } catch (error) {
      this.opened = null;
      throw error;
    }
  }

  async keys(front) {
    const transaction = await this.transaction('readonly');
    return settled(transaction.objectStore(STORE).getAllKeys(rangeOf(front)));
  }

  async read(front) {
    const transaction = await this.transaction('readonly');
    const pairs = await settled(transaction.objectStore(STORE).getAll(rangeOf(front)));
    return pairs.map(({ key, text }) => [key, text]);
  }

  async write(changes) {
    const transaction = await this.transaction('readwrite', { durability: 'strict' });
    const done = settled(transaction, 'oncomplete', 'onabort');
    const store = transaction.objectStore(STORE);
    try {
      for (const [key, text] of changes) {
        if (text === null) store.delete(key);
        else store.put({ key, text });
      }
      // (a page that ends aborts a transaction that isn't committed)
      if (transaction.commit) transaction.commit();
    } catch (error) {
      transaction.abort();
      await done.catch(() => {});
      throw error;
    }
    await done;
  }

  lock(lock) {
    return new Promise((resolve, reject) => {
      // (the lock is held until the promise is fulfilled, and `resolve` receives the function for that)
      const hold = (held) => (held ? new Promise(resolve) : resolve(null));
      globalThis.navigator.locks.request(`${this.name} ${lock}`, { ifAvailable: true }, hold).catch(reject);
    });
  }
}
