/**
 * A hook for React, without a dependency on it.
 * @module
 */

/** @typedef {import('./ot/component.js').Path} Path */
/** @typedef {(listener: () => void) => () => void} Subscribe */
/** @typedef {<Value>(subscribe: Subscribe, read: () => Value, readOnServer?: () => Value) => Value} UseStore */

/**
 * Makes the hook `useDoc`, which returns the data of a document, or the value at a path of it. A component renders
 * again once that value changes.
 * @param {UseStore} useSyncExternalStore of React
 * @returns {(doc: import('./doc.js').Doc<any>, path?: Path) => any}
 */
export function docHook(useSyncExternalStore) {
  const subscribers = new WeakMap(); // React subscribes anew if it receives another function
  return function useDoc(doc, path = []) {
    if (!subscribers.has(doc)) subscribers.set(doc, (listener) => doc.on('change', listener));
    const read = () => doc.valueAt(path);
    return useSyncExternalStore(subscribers.get(doc), read, read);
  };
}
