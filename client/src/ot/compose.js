/**
 * Successive operations composed to one.
 * @module
 */
import { LARGEST } from '../limits.js';
import { deleteText, insertText } from './apply.js';
import { containerDepth, shapeOf } from './component.js';
import { shareFront } from './transform.js';

/** @typedef {import('./component.js').Operation} Operation */

function mergeNumbers(last, next) {
  const sum = last.na + next.na;
  return Math.abs(sum) <= LARGEST ? [{ p: last.p, na: sum }] : null;
}

function mergeInserts(last, next, at, offset) {
  if (offset < at || offset > at + last.si.length) return null;
  return [{ p: last.p, si: insertText(last.si, next, offset - at) }];
}

function mergeDeletes(last, next, at, offset) {
  if (offset === at) return [{ p: last.p, sd: last.sd + next.sd }];
  return offset + next.sd.length === at ? [{ p: next.p, sd: next.sd + last.sd }] : null;
}

// A part of the inserted text is deleted again.
function mergeInsertDelete(last, next, at, offset) {
  if (offset < at || offset + next.sd.length > at + last.si.length) return null;
  const left = deleteText(last.si, next, offset - at);
  return left === '' ? [] : [{ p: last.p, si: left }];
}

const MERGES = {
  na: { na: mergeNumbers },
  si: { si: mergeInserts, sd: mergeInsertDelete },
  sd: { sd: mergeDeletes },
};

// Returns the components that replace two successive ones, or null if both stay.
function merge(last, next) {
  const shape = shapeOf(last);
  const nextShape = shapeOf(next);
  const rule = MERGES[shape] && MERGES[shape][nextShape];
  const depth = containerDepth(last, shape);
  if (!rule || depth !== containerDepth(next, nextShape) || !shareFront(last.p, next.p, depth)) return null;
  return rule(last, next, last.p[depth], next.p[depth]);
}

/**
 * Composes two successive operations.
 * @param {Operation} first
 * @param {Operation} second
 * @returns {Operation}
 * @throws {Refusal} if the second one deletes another text than the first one inserts
 */
export function compose(first, second) {
  const composed = first.slice();
  for (const component of second) {
    const last = composed.pop();
    const merged = last === undefined ? [component] : merge(last, component) || [last, component];
    composed.push(...merged);
  }
  return composed;
}
