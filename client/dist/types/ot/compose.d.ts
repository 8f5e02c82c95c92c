/**
 * Composes two successive operations.
 * @param {Operation} first
 * @param {Operation} second
 * @returns {Operation}
 * @throws {Refusal} if the second one deletes another text than the first one inserts
 */
export function compose(first: import("./component.js").Operation, second: import("./component.js").Operation): import("./component.js").Operation;
export type Operation = import('./component.js').Operation;
