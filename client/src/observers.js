/**
 * What other modules of the client need of a document: its changes as they are made, and an edit that is refused by an
 * exception. They import no document, so that they can be loaded without one.
 * @module
 */
import { report } from './emitter.js';

/** @typedef {import('./ot/component.js').Operation} Operation */
/**
 * A change of `data`. Its documents may have overlays.
 * @typedef {{operation: Operation | null, source: any, local: boolean, before: any, data: any}} Change
 */

/**
 * Calls the observer with each change at once, while listeners of events may be called later. It must not edit.
 * @param {any} doc
 * @param {(change: Change) => void} observer
 * @returns {() => void} removes the observer
 */
export function observe(doc, observer) {
  const { observers } = doc._doc();
  observers.add(observer);
  return () => observers.delete(observer);
}

/**
 * @param {Set<(change: Change) => void>} observers
 * @param {Change[]} changes
 */
export function callObservers(observers, changes) {
  for (const change of changes) {
    for (const observer of [...observers]) {
      try {
        observer(change);
      } catch (error) {
        report(error);
      }
    }
  }
}

/**
 * Submits an operation, which may have more components than a message.
 * @param {any} doc
 * @param {Operation} operation
 * @param {any} source
 * @returns {Promise<{version: number | null}>}
 * @throws {Refusal} if the document refuses it at once
 */
export function submitAtOnce(doc, operation, source) {
  return doc._doc().submitAtOnce(operation, source);
}
