export function insertText(text: any, { si }: {
    si: any;
}, offset: any): any;
export function deleteText(text: any, { sd }: {
    sd: any;
}, offset: any): any;
export function applyComponent(data: any, component: any): any;
/**
 * The value at the first `depth` steps of a path, which may have overlays, or undefined.
 * @param {Data} data
 * @param {Array<string | number>} path
 * @param {number} depth
 * @returns {any}
 */
export function valueAt(data: Data, path: Array<string | number>, depth: number): any;
/**
 * Applies the operation as `apply`, and returns the result with overlays.
 * @param {Data} data
 * @param {Operation} operation
 * @returns {any}
 */
export function overlaid(data: Data, operation: import("./component.cjs").Operation): any;
/**
 * Applies the operation to a value, which stays unchanged, and returns the result.
 * @param {Data} data
 * @param {Operation} operation
 * @returns {any}
 * @throws {Refusal} if a component can't be applied
 */
export function apply(data: Data, operation: import("./component.cjs").Operation): any;
export type Data = import('./component.cjs').Data;
export type Operation = import('./component.cjs').Operation;
