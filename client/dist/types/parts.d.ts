/**
 * Splits an operation into a part that the server takes and the rest.
 * @param {Operation} operation
 * @param {number} room bytes of the components of a message
 * @returns {{part: Operation, rest: Operation}} the part is empty only if the operation is
 */
export function firstPart(operation: import("./ot/component.js").Operation, room: number): {
    part: import("./ot/component.js").Operation;
    rest: import("./ot/component.js").Operation;
};
/**
 * The operation with all removed values as null, if it is too long with them.
 * @param {Operation} operation
 * @param {number} room bytes of the components of a message
 * @returns {Operation}
 */
export function withShortRemoved(operation: import("./ot/component.js").Operation, room: number): import("./ot/component.js").Operation;
/**
 * The operation with all removed values as null.
 * @param {Operation} operation
 * @returns {Operation}
 */
export function withoutRemovedValues(operation: import("./ot/component.js").Operation): import("./ot/component.js").Operation;
export type Component = import('./ot/component.js').Component;
export type Operation = import('./ot/component.js').Operation;
