/**
 * Texts and carets, as an editor needs them.
 * @module
 */
import { LEFT, containerDepth, shapeOf } from './component.js';
import { isHighHalf, isLowHalf } from './halves.js';
import { shareFront, transformComponent } from './transform.js';

/** @typedef {import('./component.js').Component} Component */
/** @typedef {import('./component.js').Operation} Operation */

/** Shapes that move the items after them. */
const MOVING = new Set(['li', 'ld']);

function commonFront(before, after, most) {
  let length = 0;
  while (length < most && before[length] === after[length]) length += 1;
  return isHighHalf(before.charCodeAt(length - 1)) ? length - 1 : length;
}

function commonEnd(before, after, most) {
  let length = 0;
  while (length < most && before[before.length - 1 - length] === after[after.length - 1 - length]) length += 1;
  return isLowHalf(before.charCodeAt(before.length - length)) ? length - 1 : length;
}

/**
 * Returns the operation from one text to another, as an editor needs it after an input event.
 * @param {Array<string | number>} path of the text
 * @param {string} before
 * @param {string} after
 * @param {number} [caret] the caret in `after`: the text after it was likely not changed
 * @returns {Operation}
 */
export function textChange(path, before, after, caret = 0) {
  const shorter = Math.min(before.length, after.length);
  const afterCaret = commonEnd(before, after, Math.min(shorter, after.length - caret));
  const front = commonFront(before, after, shorter - afterCaret);
  const end = commonEnd(before, after, shorter - front);
  const at = [...path, front];
  const removed = before.slice(front, before.length - end);
  const inserted = after.slice(front, after.length - end);
  return [
    ...(removed === '' ? [] : [{ p: at, sd: removed }]),
    ...(inserted === '' ? [] : [{ p: at, si: inserted }]),
  ];
}

// Returns the path of a caret after an operation, or null if the operation removes the text.
function caretAfter(p, operation, side) {
  /** @type {Component[]} */
  let carets = [{ p, si: '' }];
  for (const component of operation) {
    carets = carets.flatMap((caret) => transformComponent(caret, component, side));
  }
  return carets.length === 0 ? null : carets[0].p;
}

/**
 * Returns a position in a text after an operation, as of a caret. If the operation removes the text, it is 0.
 * @param {number} position an offset in UTF-16 units
 * @param {Operation} operation
 * @param {Array<string | number>} path of the text
 * @param {'left' | 'right'} side `left` stays before what is inserted at the position, `right` moves after it
 * @returns {number}
 */
export function transformPosition(position, operation, path, side) {
  const after = caretAfter([...path, position], operation, side);
  return after === null ? 0 : /** @type {number} */ (after[after.length - 1]);
}

/**
 * Returns an offset of a text after an operation: a caret stays before what is inserted at it. If the operation removes
 * the text, the offset is 0.
 * @param {number} offset
 * @param {Operation} operation
 * @param {Array<string | number>} path of the text
 * @returns {number}
 */
export function transformOffset(offset, operation, path) {
  return transformPosition(offset, operation, path, LEFT);
}

/**
 * Returns the path of a text after an operation: an item moves if items are inserted or removed before it.
 * @param {Array<string | number>} path
 * @param {Operation} operation
 * @returns {Array<string | number> | null} null if an item with the text was removed
 */
export function transformPath(path, operation) {
  const moving = operation.filter((component) => MOVING.has(shapeOf(component)));
  const after = caretAfter([...path, 0], moving, LEFT);
  return after === null ? null : after.slice(0, -1);
}

/**
 * Returns the components of an operation that can change a text or its path.
 * @param {Array<string | number>} path
 * @param {Operation} operation
 * @returns {Operation}
 */
export function componentsFor(path, operation) {
  /** @type {Array<string | number> | null} */
  let present = path;
  return operation.filter((component) => {
    const depth = containerDepth(component, shapeOf(component));
    const isFor = present !== null && depth <= present.length && shareFront(present, component.p, depth);
    present = present && transformPath(present, [component]);
    return isFor;
  });
}

/**
 * Returns the offset after the last change of a text by an operation, or null if it doesn't change the text.
 * @param {Operation} operation
 * @param {Array<string | number>} path of the text
 * @returns {number | null}
 */
export function endOf(operation, path) {
  const isOfText = ({ p, si, sd }) => (si || sd) && p.length === path.length + 1 && shareFront(p, path, path.length);
  const changes = operation.filter(isOfText);
  if (changes.length === 0) return null;
  const { p, si = '' } = /** @type {any} */ (changes[changes.length - 1]);
  return p[path.length] + si.length;
}
