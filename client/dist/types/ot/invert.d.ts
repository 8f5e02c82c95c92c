/**
 * Completes an operation as `complete`, and returns the document with overlays.
 * @param {Data} data
 * @param {Operation} operation
 * @returns {{operation: Operation, data: any}}
 */
export function completeOverlaid(data: Data, operation: import("./component.js").Operation): {
    operation: import("./component.js").Operation;
    data: any;
};
/**
 * Completes an operation by the document: `ld` and `od` become the values that are removed, `oi` of a key that is there
 * gets `od`, and an `od` of no key is left out. Two clients converge only with operations that are completed.
 * @param {Data} data
 * @param {Operation} operation
 * @returns {{operation: Operation, data: any}} the operation, and the document after it
 * @throws {Refusal} if a component can't be applied
 */
export function complete(data: Data, operation: import("./component.js").Operation): {
    operation: import("./component.js").Operation;
    data: any;
};
/**
 * Returns the operation that undoes an operation. Others' later operations are transformed against it by `cross`.
 * @param {Operation} operation
 * @param {Data} before the document that the operation is applied to
 * @returns {Operation} for the document after it
 * @throws {Refusal} if a component can't be applied
 */
export function invert(operation: import("./component.js").Operation, before: Data): import("./component.js").Operation;
export type Data = import('./component.js').Data;
export type Component = import('./component.js').Component;
export type Operation = import('./component.js').Operation;
