/**
 * Composes two successive operations.
 * @param {Operation} first
 * @param {Operation} second
 * @returns {Operation}
 * @throws {Refusal} if the second one deletes another text than the first one inserts
 */
export function compose(first: import("./component.cjs").Operation, second: import("./component.cjs").Operation): import("./component.cjs").Operation;
export type Operation = import('./component.cjs').Operation;
