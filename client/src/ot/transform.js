/**
 * Transforms: concurrent operations rewritten to apply one after the other, as the server does.
 * @module
 */
import { orRefusal, spelled } from '../errors.js';
import { apply } from './apply.js';
import {
  LEFT, REMOVING, RIGHT, containerDepth, has, notApplied, shapeOf, withLastStep, withStep,
} from './component.js';
import { isInsidePair } from './halves.js';

/** @typedef {import('./component.js').Component} Component */
/** @typedef {import('./component.js').Operation} Operation */

export function shareFront(path, other, length) {
  for (let depth = 0; depth < length; depth += 1) if (path[depth] !== other[depth]) return false;
  return true;
}

// The other component changes something inside the value that this one removes: the removed value is updated.
function withRemovedAfter(component, other) {
  const member = has(component, 'ld') ? 'ld' : 'od';
  const inside = { ...other, p: other.p.slice(component.p.length) };
  return orRefusal(
    () => ({ ...component, [member]: apply(component[member], [inside]) }),
    () => component,
  );
}

// The component's path goes through an item or member of the other one's list or object.
function transformBelow(component, other, otherShape, depth) {
  const step = component.p[depth];
  const at = other.p[depth];
  if (typeof step !== typeof at) return [component];
  switch (otherShape) {
    case 'li':
      return at <= step ? [withStep(component, depth, step + 1)] : [component];
    case 'ld':
      if (step === at) return [];
      return step > at ? [withStep(component, depth, step - 1)] : [component];
    case 'lr':
    case 'od':
    case 'or':
      return step === at ? [] : [component];
    default:
      return [component];
  }
}

// The other one inserts an item at `at`; an insert at the same index goes after it only on the right side.
function insertAfterInserted(component, other, step, at, side) {
  const isAfter = step > at || (step === at && side === RIGHT);
  return [isAfter ? withLastStep(component, step + 1) : component];
}

function itemAfterInserted(component, other, step, at) {
  return [at <= step ? withLastStep(component, step + 1) : component];
}

function insertAfterDeleted(component, other, step, at) {
  return [step > at ? withLastStep(component, step - 1) : component];
}

function deleteAfterDeleted(component, other, step, at) {
  return step === at ? [] : insertAfterDeleted(component, other, step, at);
}

function replaceAfterDeleted(component, other, step, at) {
  if (step === at) return [{ p: component.p, li: component.li }];
  return insertAfterDeleted(component, other, step, at);
}

function deleteAfterReplaced(component, other, step, at) {
  return step === at ? [] : [component];
}

function replaceAfterReplaced(component, other, step, at, side) {
  if (step !== at) return [component];
  return side === LEFT ? [{ p: component.p, ld: other.li, li: component.li }] : [];
}

// Both set one key: the left one stays.
function putAfterPut(component, other, key, otherKey, side) {
  if (key !== otherKey) return [component];
  return side === LEFT ? [{ p: component.p, od: other.oi, oi: component.oi }] : [];
}

function removeAfterGone(component, other, key, otherKey) {
  return key === otherKey ? [] : [component];
}

function replaceAfterRemoved(component, other, key, otherKey) {
  return [key === otherKey ? { p: component.p, oi: component.oi } : component];
}

function textAfterInsert(component, other, offset, at, side) {
  const isAfter = at < offset || (at === offset && side === RIGHT);
  return [isAfter ? withLastStep(component, offset + other.si.length) : component];
}

function textAfterDelete(component, other, offset, at) {
  if (offset <= at) return [component];
  return [withLastStep(component, Math.max(at, offset - other.sd.length))];
}

// Returns the part of a deleted text between two of its offsets.
function cut(text, from, to) {
  for (const offset of [from, to]) {
    if (isInsidePair(text, offset)) notApplied(`${spelled(text)} would be cut inside a surrogate pair`);
  }
  return text.slice(from, to);
}

function deleteAfterInsert(component, other, offset, at) {
  const text = component.sd;
  if (at <= offset) return [withLastStep(component, offset + other.si.length)];
  if (at >= offset + text.length) return [component];
  const front = { ...component, sd: cut(text, 0, at - offset) };
  const rest = { ...component, sd: cut(text, at - offset, text.length) };
  return [front, withLastStep(rest, offset + other.si.length)];
}

function deleteAfterDelete(component, other, offset, at) {
  const text = component.sd;
  const otherEnd = at + other.sd.length;
  if (offset >= otherEnd) return [withLastStep(component, offset - other.sd.length)];
  if (offset + text.length <= at) return [component];
  const before = at > offset ? cut(text, 0, at - offset) : '';
  const after = offset + text.length > otherEnd ? cut(text, otherEnd - offset, text.length) : '';
  const left = before + after;
  return left === '' ? [] : [withLastStep({ ...component, sd: left }, Math.min(offset, at))];
}

// Both work at one list, object or text: by the shape of the other one, then by the shape of the component.
const BESIDE = {
  li: { li: insertAfterInserted, ld: itemAfterInserted, lr: itemAfterInserted },
  ld: { li: insertAfterDeleted, ld: deleteAfterDeleted, lr: replaceAfterDeleted },
  lr: { ld: deleteAfterReplaced, lr: replaceAfterReplaced },
  oi: { oi: putAfterPut, or: putAfterPut },
  od: { od: removeAfterGone, or: replaceAfterRemoved },
  or: { oi: putAfterPut, or: putAfterPut, od: removeAfterGone },
  si: { si: textAfterInsert, sd: deleteAfterInsert },
  sd: { si: textAfterDelete, sd: deleteAfterDelete },
  na: {},
};

/**
 * Transforms a component against a concurrent one.
 * @param {Component} component
 * @param {Component} other
 * @param {'left' | 'right'} side of `component`, which decides if both have the same place
 * @returns {Component[]}
 * @throws {Refusal} if a deleted text would be cut inside a surrogate pair, or an index gets too large
 */
export function transformComponent(component, other, side) {
  const shape = shapeOf(component);
  const otherShape = shapeOf(other);
  const depth = containerDepth(component, shape);
  const otherDepth = containerDepth(other, otherShape);
  if (REMOVING.has(shape) && otherDepth > depth && shareFront(component.p, other.p, depth + 1)) {
    return [withRemovedAfter(component, other)];
  }
  if (depth < otherDepth || !shareFront(component.p, other.p, otherDepth)) return [component];
  if (depth > otherDepth) return transformBelow(component, other, otherShape, otherDepth);
  const rule = BESIDE[otherShape][shape];
  return rule ? rule(component, other, component.p[depth], other.p[depth], side) : [component];
}

// Crosses one left component with several right ones.
function crossOne(left, right) {
  if (right.length !== 1) return cross([left], right);
  return {
    left: transformComponent(left, right[0], LEFT),
    right: transformComponent(right[0], left, RIGHT),
  };
}

// Crosses several left components with one right one.
function crossRow(left, component) {
  const crossed = [];
  let right = [component];
  for (const one of left) {
    if (right.length === 0) {
      crossed.push(one);
    } else {
      const both = crossOne(one, right);
      crossed.push(...both.left);
      right = both.right;
    }
  }
  return { left: crossed, right };
}

/**
 * Transforms two concurrent operations against each other.
 * @param {Operation} left the one that is stored later
 * @param {Operation} right the one that is stored before it
 * @returns {{left: Operation, right: Operation}}
 * @throws {Refusal} if one can't be transformed
 */
export function cross(left, right) {
  let rest = left;
  const crossed = [];
  for (const component of right) {
    const both = crossRow(rest, component);
    rest = both.left;
    crossed.push(...both.right);
  }
  return { left: rest, right: crossed };
}
