/**
 * Returns the operation from one text to another, as an editor needs it after an input event.
 * @param {Array<string | number>} path of the text
 * @param {string} before
 * @param {string} after
 * @param {number} [caret] the caret in `after`: the text after it was likely not changed
 * @returns {Operation}
 */
export function textChange(path: Array<string | number>, before: string, after: string, caret?: number | undefined): import("./component.js").Operation;
/**
 * Returns a position in a text after an operation, as of a caret. If the operation removes the text, it is 0.
 * @param {number} position an offset in UTF-16 units
 * @param {Operation} operation
 * @param {Array<string | number>} path of the text
 * @param {'left' | 'right'} side `left` stays before what is inserted at the position, `right` moves after it
 * @returns {number}
 */
export function transformPosition(position: number, operation: import("./component.js").Operation, path: Array<string | number>, side: 'left' | 'right'): number;
/**
 * Returns an offset of a text after an operation: a caret stays before what is inserted at it. If the operation removes
 * the text, the offset is 0.
 * @param {number} offset
 * @param {Operation} operation
 * @param {Array<string | number>} path of the text
 * @returns {number}
 */
export function transformOffset(offset: number, operation: import("./component.js").Operation, path: Array<string | number>): number;
/**
 * Returns the path of a text after an operation: an item moves if items are inserted or removed before it.
 * @param {Array<string | number>} path
 * @param {Operation} operation
 * @returns {Array<string | number> | null} null if an item with the text was removed
 */
export function transformPath(path: Array<string | number>, operation: import("./component.js").Operation): Array<string | number> | null;
/**
 * Returns the components of an operation that can change a text or its path.
 * @param {Array<string | number>} path
 * @param {Operation} operation
 * @returns {Operation}
 */
export function componentsFor(path: Array<string | number>, operation: import("./component.js").Operation): import("./component.js").Operation;
/**
 * Returns the offset after the last change of a text by an operation, or null if it doesn't change the text.
 * @param {Operation} operation
 * @param {Array<string | number>} path of the text
 * @returns {number | null}
 */
export function endOf(operation: import("./component.js").Operation, path: Array<string | number>): number | null;
export type Component = import('./component.js').Component;
export type Operation = import('./component.js').Operation;
