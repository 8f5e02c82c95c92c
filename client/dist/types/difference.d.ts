/** @typedef {import('./ot/component.js').Data} Data */
/** @typedef {import('./ot/component.js').Path} Path */
/** @typedef {import('./ot/component.js').Component} Component */
/** @typedef {import('./ot/component.js').Operation} Operation */
/** @typedef {{operation: Component[], origins: Map<object, object>}} Context */
/**
 * Returns the smallest operation from one value to another. Texts are compared by their common prefix and suffix, lists
 * by a longest common subsequence, objects by their keys. Other values are replaced.
 * @param {Path} path of the value; an empty one is the whole document
 * @param {Data} before
 * @param {Data} after
 * @param {Map<object, object>} [origins] the item of `before` for each item of `after` that was a copy of it
 * @returns {Operation} empty if the values are equal
 * @throws {Refusal} if no operation leads from one whole document to the other, as from a text to a list
 */
export function difference(path: import("./ot/component.js").Path, before: Data, after: Data, origins?: Map<any, any> | undefined): import("./ot/component.js").Operation;
export type Data = import('./ot/component.js').Data;
export type Path = import('./ot/component.js').Path;
export type Component = import('./ot/component.js').Component;
export type Operation = import('./ot/component.js').Operation;
export type Context = {
    operation: Component[];
    origins: Map<object, object>;
};
