/**
 * Operations cut into parts that the server takes: at most 256 components and 1,048,576 bytes in a message.
 * @module
 */
import { MOST_COMPONENTS, bytesOf } from './limits.js';
import { REMOVING, has, isShallow, shapeOf, withLastStep } from './ot/component.js';
import { isInsidePair } from './ot/halves.js';

/** @typedef {import('./ot/component.js').Component} Component */
/** @typedef {import('./ot/component.js').Operation} Operation */

function sizeOf(component) {
  return bytesOf(JSON.stringify(component)) + 1;
}

// The server doesn't compare removed values, so a value that is too deep or too long is sent as null.
function withoutRemoved(component) {
  return { ...component, [has(component, 'ld') ? 'ld' : 'od']: null };
}

function withFittingRemoved(component, room) {
  if (!REMOVING.has(shapeOf(component))) return component;
  const isFitting = isShallow(has(component, 'ld') ? component.ld : component.od) && sizeOf(component) <= room;
  return isFitting ? component : withoutRemoved(component);
}

// Returns an offset near the middle of the text, outside a surrogate pair.
function middleOf(text) {
  const middle = text.length >> 1;
  return isInsidePair(text, middle) ? middle + 1 : middle;
}

// Returns two components that do what one that inserts or deletes a text does.
function halved(component) {
  const member = has(component, 'si') ? 'si' : 'sd';
  const text = component[member];
  const middle = middleOf(text);
  const rest = { ...component, [member]: text.slice(middle) };
  const at = component.p[component.p.length - 1];
  return [{ ...component, [member]: text.slice(0, middle) }, member === 'si' ? withLastStep(rest, at + middle) : rest];
}

// Replaces a component that is too long by shorter ones, if that is possible.
function shortened(component, room) {
  const fitting = withFittingRemoved(component, room);
  const isHalvable = has(fitting, 'si') || has(fitting, 'sd');
  if (!isHalvable || sizeOf(fitting) <= room) return [fitting];
  return halved(fitting).flatMap((half) => shortened(half, room));
}

/**
 * Splits an operation into a part that the server takes and the rest.
 * @param {Operation} operation
 * @param {number} room bytes of the components of a message
 * @returns {{part: Operation, rest: Operation}} the part is empty only if the operation is
 */
export function firstPart(operation, room) {
  const whole = operation.flatMap((component) => shortened(component, room));
  let size = 0;
  let length = 0;
  while (length < Math.min(whole.length, MOST_COMPONENTS)) {
    size += sizeOf(whole[length]);
    if (size > room && length > 0) break;
    length += 1;
  }
  return { part: whole.slice(0, length), rest: whole.slice(length) };
}

/**
 * The operation with all removed values as null, if it is too long with them.
 * @param {Operation} operation
 * @param {number} room bytes of the components of a message
 * @returns {Operation}
 */
export function withShortRemoved(operation, room) {
  return bytesOf(JSON.stringify(operation)) <= room ? operation : withoutRemovedValues(operation);
}

/**
 * The operation with all removed values as null.
 * @param {Operation} operation
 * @returns {Operation}
 */
export function withoutRemovedValues(operation) {
  return /** @type {any} */ (operation.map((one) => (REMOVING.has(shapeOf(one)) ? withoutRemoved(one) : one)));
}
