/**
 * A hook for React, without a dependency on it.
 * @module
 */
/** @typedef {import('./ot/component.cjs').Path} Path */
/** @typedef {(listener: () => void) => () => void} Subscribe */
/** @typedef {<Value>(subscribe: Subscribe, read: () => Value, readOnServer?: () => Value) => Value} UseStore */
/**
 * Makes the hook `useDoc`, which returns the data of a document, or the value at a path of it. A component renders
 * again once that value changes.
 * @param {UseStore} useSyncExternalStore of React
 * @returns {(doc: import('./doc.cjs').Doc<any>, path?: Path) => any}
 */
export function docHook(useSyncExternalStore: UseStore): (doc: import('./doc.cjs').Doc<any>, path?: import("./ot/component.cjs").Path) => any;
export type Path = import('./ot/component.cjs').Path;
export type Subscribe = (listener: () => void) => () => void;
export type UseStore = <Value>(subscribe: Subscribe, read: () => Value, readOnServer?: (() => Value) | undefined) => Value;
