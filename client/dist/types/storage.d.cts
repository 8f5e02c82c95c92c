/**
 * What a storage does. Keys and texts are strings.
 * @typedef {object} StorageMethods
 * @property {(front: string) => Promise<string[]>} keys the keys that start with a text
 * @property {(front: string) => Promise<Array<[string, string]>>} read the same with their texts, in ascending order
 * @property {(changes: Array<[string, string | null]>) => Promise<void>} write sets the texts of keys, and removes
 *   keys whose text is null. All are made or none is, and they are durable once the promise is fulfilled
 * @property {(name: string) => Promise<(() => void) | null>} lock acquires a lock, and returns a function that releases
 *   it, or null if any client has it. The end of a page or a process releases its locks
 */
/** @typedef {import('./connection.cjs').ClientStorage} ClientStorage */
/**
 * Makes a storage of its methods.
 * @param {StorageMethods} methods
 * @returns {ClientStorage}
 */
export function customStorage(methods: StorageMethods): ClientStorage;
/**
 * Keeps documents in a database of the browser, for all pages of one origin. A page of http has it on localhost only.
 * @param {string} name of the database
 * @returns {ClientStorage}
 */
export function indexedDbStorage(name: string): ClientStorage;
/**
 * What a storage does. Keys and texts are strings.
 */
export type StorageMethods = {
    /**
     * the keys that start with a text
     */
    keys: (front: string) => Promise<string[]>;
    /**
     * the same with their texts, in ascending order
     */
    read: (front: string) => Promise<Array<[string, string]>>;
    /**
     * sets the texts of keys, and removes
     * keys whose text is null. All are made or none is, and they are durable once the promise is fulfilled
     */
    write: (changes: Array<[string, string | null]>) => Promise<void>;
    /**
     * acquires a lock, and returns a function that releases
     * it, or null if any client has it. The end of a page or a process releases its locks
     */
    lock: (name: string) => Promise<(() => void) | null>;
};
export type ClientStorage = import('./connection.cjs').ClientStorage;
