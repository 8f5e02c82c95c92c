/** @typedef {import('./ot/component.cjs').Data} Data */
/** @typedef {import('./ot/component.cjs').Path} Path */
/** @typedef {import('./ot/component.cjs').Component} Component */
/** @typedef {import('./ot/component.cjs').Operation} Operation */
/** @typedef {{operation: Component[], origins: Map<object, object>}} Context */
/**
 * Returns the smallest operation from one value to another. Texts are compared by their common prefix and suffix, lists
 * by a longest common subsequence, objects by their keys. Other values are replaced.
 * @param {Path} path of the value; an empty one is the whole document
 * @param {Data} before
 * @param {Data} after
 * @param {Map<object, object>} [origins] the item of `before` for each item of `after` that was a copy of it
 * @returns {Operation} empty if the values are equal
 * @throws {Refusal} if no operation leads from one whole document to the other, as from a text to a list
 */
export function difference(path: import("./ot/component.cjs").Path, before: Data, after: Data, origins?: Map<any, any> | undefined): import("./ot/component.cjs").Operation;
export type Data = import('./ot/component.cjs').Data;
export type Path = import('./ot/component.cjs').Path;
export type Component = import('./ot/component.cjs').Component;
export type Operation = import('./ot/component.cjs').Operation;
export type Context = {
    operation: Component[];
    origins: Map<object, object>;
};
