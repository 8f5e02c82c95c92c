/**
 * Operations applied to values, which stay unchanged: the result shares what is unchanged with the value.
 * @module
 */
import { Refusal, spelled } from '../errors.js';
import { LARGEST } from '../limits.js';
import { containerDepth, has, isObject, notApplied, shapeOf } from './component.js';
import { isInsidePair } from './halves.js';
import { hasMember, memberOf, plain, withMember, withoutMember } from './overlay.js';

/** @typedef {import('./component.js').Data} Data */
/** @typedef {import('./component.js').Operation} Operation */

function checkOffset(text, offset) {
  if (typeof text !== 'string') notApplied('there is no text');
  if (offset > text.length) notApplied(`the offset ${offset} exceeds the text's length ${text.length}`);
  if (isInsidePair(text, offset)) notApplied(`the offset ${offset} is inside a surrogate pair`);
}

function checkItem(list, index, limit) {
  if (!Array.isArray(list)) notApplied('there is no list');
  if (index >= limit) notApplied(`the index ${index} exceeds the list's length ${list.length}`);
}

function checkObject(object) {
  if (!isObject(object)) notApplied('there is no object');
}

function withItem(list, index, value) {
  const copy = list.slice();
  copy[index] = value;
  return copy;
}

function addNumber(number, { na }) {
  if (typeof number !== 'number') notApplied('there is no number');
  const sum = number + na;
  return Math.abs(sum) <= LARGEST ? sum : notApplied(`the sum of ${number} and ${na} is too large`);
}

export function insertText(text, { si }, offset) {
  checkOffset(text, offset);
  return text.slice(0, offset) + si + text.slice(offset);
}

export function deleteText(text, { sd }, offset) {
  checkOffset(text, offset);
  if (!text.startsWith(sd, offset)) notApplied(`the text at ${offset} isn't ${spelled(sd)}`);
  return text.slice(0, offset) + text.slice(offset + sd.length);
}

function insertItem(list, { li }, index) {
  checkItem(list, index, list && list.length + 1);
  return [...list.slice(0, index), li, ...list.slice(index)];
}

function deleteItem(list, component, index) {
  checkItem(list, index, list && list.length);
  return [...list.slice(0, index), ...list.slice(index + 1)];
}

function replaceItem(list, { li }, index) {
  checkItem(list, index, list && list.length);
  return withItem(list, index, li);
}

function setMember(object, { oi }, key) {
  checkObject(object);
  return withMember(object, key, oi);
}

function removeMember(object, component, key) {
  checkObject(object);
  return withoutMember(object, key);
}

const EFFECTS = {
  na: addNumber,
  si: insertText,
  sd: deleteText,
  li: insertItem,
  ld: deleteItem,
  lr: replaceItem,
  oi: setMember,
  od: removeMember,
  or: setMember,
};

// Returns the value with a change at the first `depth` steps of the path. Lists are copied, and have no overlays.
function changeAt(value, path, depth, change, from = 0) {
  if (from === depth) return change(value);
  const step = path[from];
  if (typeof step === 'number') {
    checkItem(value, step, value && value.length);
    return withItem(value, step, plain(changeAt(value[step], path, depth, change, from + 1)));
  }
  if (!isObject(value) || !hasMember(value, step)) notApplied(`there is no member ${spelled(step)}`);
  return withMember(value, step, changeAt(memberOf(value, step), path, depth, change, from + 1));
}

// Returns the value after the component, with overlays.
export function applyComponent(data, component) {
  const shape = shapeOf(component);
  const depth = containerDepth(component, shape);
  try {
    return changeAt(data, component.p, depth, (place) => EFFECTS[shape](place, component, component.p[depth]));
  } catch (error) {
    throw error instanceof Refusal ? new Refusal(error.code, `${error.message}, path ${spelled(component.p)}`) : error;
  }
}

/**
 * The value at the first `depth` steps of a path, which may have overlays, or undefined.
 * @param {Data} data
 * @param {Array<string | number>} path
 * @param {number} depth
 * @returns {any}
 */
export function valueAt(data, path, depth) {
  let value = data;
  for (let at = 0; at < depth; at += 1) {
    const step = path[at];
    if (typeof step === 'number' ? !Array.isArray(value) : !isObject(value)) return undefined;
    if (Array.isArray(value) ? !has(value, step) : !hasMember(value, step)) return undefined;
    value = memberOf(value, step);
  }
  return value;
}

/**
 * Applies the operation as `apply`, and returns the result with overlays.
 * @param {Data} data
 * @param {Operation} operation
 * @returns {any}
 */
export function overlaid(data, operation) {
  return operation.reduce(applyComponent, data);
}

/**
 * Applies the operation to a value, which stays unchanged, and returns the result.
 * @param {Data} data
 * @param {Operation} operation
 * @returns {any}
 * @throws {Refusal} if a component can't be applied
 */
export function apply(data, operation) {
  return plain(overlaid(data, operation));
}
