/** @typedef {import('./ot/component.js').Operation} Operation */
/**
 * A change of `data`. Its documents may have overlays.
 * @typedef {{operation: Operation | null, source: any, local: boolean, before: any, data: any}} Change
 */
/**
 * Calls the observer with each change at once, while listeners of events may be called later. It must not edit.
 * @param {any} doc
 * @param {(change: Change) => void} observer
 * @returns {() => void} removes the observer
 */
export function observe(doc: any, observer: (change: Change) => void): () => void;
/**
 * @param {Set<(change: Change) => void>} observers
 * @param {Change[]} changes
 */
export function callObservers(observers: Set<(change: Change) => void>, changes: Change[]): void;
/**
 * Submits an operation, which may have more components than a message.
 * @param {any} doc
 * @param {Operation} operation
 * @param {any} source
 * @returns {Promise<{version: number | null}>}
 * @throws {Refusal} if the document refuses it at once
 */
export function submitAtOnce(doc: any, operation: import("./ot/component.js").Operation, source: any): Promise<{
    version: number | null;
}>;
export type Operation = import('./ot/component.js').Operation;
/**
 * A change of `data`. Its documents may have overlays.
 */
export type Change = {
    operation: import("./ot/component.js").Component[] | null;
    source: any;
    local: boolean;
    before: any;
    data: any;
};
