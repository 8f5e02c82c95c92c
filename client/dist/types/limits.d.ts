/**
 * The number of bytes of a text in UTF-8.
 * @param {string} text
 * @returns {number}
 */
export function bytesOf(text: string): number;
/**
 * Checks a text: the server can't parse half a surrogate pair.
 * @param {unknown} value
 * @returns {value is string}
 */
export function isText(value: unknown): value is string;
/**
 * Checks a collection, an id or a source.
 * @param {unknown} value
 * @returns {boolean}
 */
export function isName(value: unknown): boolean;
/**
 * Checks the length of a message.
 * @param {string} text
 * @returns {boolean}
 */
export function isSendable(text: string): boolean;
/**
 * The server's limits. The client refuses what exceeds them before it changes a document.
 * @module
 */
/** The type of all documents. */
export const TYPE: "http://sharejs.org/types/JSONv0";
/** The largest number, version, index and offset. */
export const LARGEST: number;
/** Bytes of a message. */
export const LONGEST_MESSAGE: 1048576;
/** Bytes of a collection, an id and a source. */
export const LONGEST_NAME: 200;
/** Steps of a path. */
export const LONGEST_PATH: 50;
/** Components of an operation that is sent. */
export const MOST_COMPONENTS: 256;
/** Levels of a value that is sent. */
export const DEEPEST: 50;
/** Components of an operation that waiting edits are composed to, and its characters. */
export const MOST_COMPOSED: 64;
export const LONGEST_COMPOSED: 65536;
/** Removed and inserted items up to which two lists are compared by a longest common subsequence. */
export const MOST_DIFFERENCES: 500;
