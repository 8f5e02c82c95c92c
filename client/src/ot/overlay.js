/**
 * Objects with changed members. `applyComponent` returns them in place of copies, so that an edit copies no object of
 * many keys. What a caller of the client receives is plain.
 * @module
 */
import { has } from './component.js';

const ABSENT = Symbol('absent');
/** Changed members of an overlay. One that has more is made plain. */
const MOST_CHANGES = 1000;

class Overlay {
  constructor(base, changes) {
    this.base = base; // a plain object
    this.changes = changes; // by key: a plain value, an overlay, or ABSENT
  }
}

function overlayOf(object) {
  return object instanceof Overlay ? object : new Overlay(object, new Map());
}

function define(object, key, value) {
  if (key !== '__proto__') object[key] = value;
  else Object.defineProperty(object, key, { value, configurable: true, enumerable: true, writable: true });
}

function merged({ base, changes }) {
  const whole = { ...base };
  for (const [key, member] of changes) {
    if (member === ABSENT) delete whole[key];
    else define(whole, key, plain(member));
  }
  return whole;
}

/**
 * Returns a value without overlays. A later call with the same overlay returns the same object.
 * @param {any} value
 * @returns {any}
 */
export function plain(value) {
  if (!(value instanceof Overlay)) return value;
  if (value.changes.size > 0) Object.assign(value, { base: merged(value), changes: new Map() });
  return value.base;
}

export function hasMember(object, key) {
  if (!(object instanceof Overlay)) return has(object, key);
  return object.changes.has(key) ? object.changes.get(key) !== ABSENT : has(object.base, key);
}

// The member is there.
export function memberOf(object, key) {
  if (!(object instanceof Overlay)) return object[key];
  return object.changes.has(key) ? object.changes.get(key) : object.base[key];
}

export function withMember(object, key, member) {
  const { base, changes } = overlayOf(object);
  const changed = new Overlay(base, new Map(changes).set(key, member));
  if (changed.changes.size > MOST_CHANGES) plain(changed);
  return changed;
}

export function withoutMember(object, key) {
  return hasMember(object, key) ? withMember(object, key, ABSENT) : object;
}
