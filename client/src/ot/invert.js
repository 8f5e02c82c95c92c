/**
 * Operations completed and inverted by the document that they are applied to.
 * @module
 */
import { applyComponent, valueAt } from './apply.js';
import { KEYED, containerDepth, has, isObject, isShallow, shapeOf } from './component.js';
import { hasMember, memberOf, plain } from './overlay.js';

/** @typedef {import('./component.js').Data} Data */
/** @typedef {import('./component.js').Component} Component */
/** @typedef {import('./component.js').Operation} Operation */

// The server refuses a removed value that is too deep, and doesn't compare it.
function removable(value) {
  const removed = plain(value);
  return isShallow(removed) ? removed : null;
}

// Returns the component with the value that it removes from the document, or null if it changes nothing.
function completeComponent(data, component, shape) {
  const depth = containerDepth(component, shape);
  const place = valueAt(data, component.p, depth);
  const last = component.p[depth];
  if (shape === 'ld' || shape === 'lr') {
    return Array.isArray(place) && has(place, last) ? { ...component, ld: removable(place[last]) } : component;
  }
  if (!KEYED.has(shape) || !isObject(place)) return component;
  const { p, oi } = component;
  if (!hasMember(place, last)) return shape === 'od' ? null : { p, oi };
  const od = removable(memberOf(place, last));
  return shape === 'od' ? { p, od } : { p, od, oi };
}

/**
 * Completes an operation as `complete`, and returns the document with overlays.
 * @param {Data} data
 * @param {Operation} operation
 * @returns {{operation: Operation, data: any}}
 */
export function completeOverlaid(data, operation) {
  const completed = [];
  let present = data;
  for (const component of operation) {
    const one = completeComponent(present, component, shapeOf(component));
    if (one !== null) {
      present = applyComponent(present, one);
      completed.push(one);
    }
  }
  return { operation: completed, data: present };
}

/**
 * Completes an operation by the document: `ld` and `od` become the values that are removed, `oi` of a key that is there
 * gets `od`, and an `od` of no key is left out. Two clients converge only with operations that are completed.
 * @param {Data} data
 * @param {Operation} operation
 * @returns {{operation: Operation, data: any}} the operation, and the document after it
 * @throws {Refusal} if a component can't be applied
 */
export function complete(data, operation) {
  const completed = completeOverlaid(data, operation);
  return { operation: completed.operation, data: plain(completed.data) };
}

const INVERSES = {
  na: ({ p, na }) => ({ p, na: 0 - na }),
  si: ({ p, si }) => ({ p, sd: si }),
  sd: ({ p, sd }) => ({ p, si: sd }),
  li: ({ p, li }) => ({ p, ld: li }),
  ld: ({ p }, old) => ({ p, li: old }),
  lr: ({ p, li }, old) => ({ p, ld: li, li: old }),
  oi: ({ p, oi }) => ({ p, od: oi }),
  od: ({ p }, old) => ({ p, oi: old }),
  or: ({ p, oi }, old) => ({ p, od: oi, oi: old }),
};

/**
 * Returns the operation that undoes an operation. Others' later operations are transformed against it by `cross`.
 * @param {Operation} operation
 * @param {Data} before the document that the operation is applied to
 * @returns {Operation} for the document after it
 * @throws {Refusal} if a component can't be applied
 */
export function invert(operation, before) {
  const inverse = [];
  let present = before;
  for (const component of operation) {
    const one = completeComponent(present, component, shapeOf(component));
    if (one !== null) {
      const next = applyComponent(present, one);
      const shape = shapeOf(one);
      inverse.push(INVERSES[shape](one, shape === 'na' ? undefined : plain(valueAt(present, one.p, one.p.length))));
      present = next;
    }
  }
  return inverse.reverse();
}
