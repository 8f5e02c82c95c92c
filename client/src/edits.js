/**
 * Operations that are made of values: to set, insert or remove one, and from a document to a changed copy of it.
 * @module
 */
import { difference } from './difference.js';
import { refuse, spelled } from './errors.js';
import { DEEPEST, LONGEST_PATH } from './limits.js';
import { valueAt } from './ot/apply.js';
import { isSame, notApplied, readData } from './ot/component.js';
import { plain } from './ot/overlay.js';

/** Returns the operation that sets a key of an object or replaces an item of a list. */
export function replacement(data, path, value) {
  const read = readData(value);
  const present = valueAt(data, path, path.length);
  if (present !== undefined && isSame(plain(present), read)) return [];
  return [typeof path[path.length - 1] === 'number' ? { p: path, ld: null, li: read } : { p: path, oi: read }];
}

/** Returns the operation that inserts an item into a list or a text into a text. */
export function insertion(data, path, at, value) {
  const place = valueAt(data, path, path.length);
  if (typeof place === 'string') return [{ p: [...path, at], si: value }];
  if (Array.isArray(place)) return [{ p: [...path, at], li: value }];
  return notApplied(`there is no list and no text, path ${spelled(path)}`);
}

/** Returns the operation that removes a key of an object or an item of a list. */
export function removal(path) {
  return [typeof path[path.length - 1] === 'number' ? { p: path, ld: null } : { p: path, od: null }];
}

/** Returns the operation that removes items of a list or a part of a text. */
export function rangeRemoval(data, path, at, count) {
  const place = valueAt(data, path, path.length);
  if (typeof place !== 'string' && !Array.isArray(place)) {
    notApplied(`there is no list and no text, path ${spelled(path)}`);
  }
  for (const number of [at, count]) {
    if (!Number.isSafeInteger(number) || number < 0) refuse('ERR_OT_OP_BADLY_FORMED', `${spelled(number)} is no index`);
  }
  const end = at + count;
  if (end > place.length) notApplied(`the end ${end} exceeds the length ${place.length}, path ${spelled(path)}`);
  if (typeof place === 'string') return [{ p: [...path, at], sd: place.slice(at, end) }];
  return Array.from({ length: count }, () => ({ p: [...path, at], ld: null }));
}

/** Returns the operation that adds to a number. */
export function addition(path, amount) {
  return amount === 0 ? [] : [{ p: path, na: amount }];
}

// Copies a value, and sets the original of each copy.
function draftOf(value, origins) {
  if (value === null || typeof value !== 'object') return value;
  const draft = Array.isArray(value) ? value.slice() : { ...value };
  for (const key of Object.keys(draft)) draft[key] = draftOf(draft[key], origins);
  origins.set(draft, value);
  return draft;
}

// Checks the values of a draft that aren't those of the original: `difference` compares plain values only.
function checkDraft(value, origins, room) {
  const origin = value !== null && typeof value === 'object' && room > 0 ? origins.get(value) : undefined;
  if (origin === undefined) {
    readData(value, 'the draft', room);
    return;
  }
  for (const key of Object.keys(value)) if (value[key] !== origin[key]) checkDraft(value[key], origins, room - 1);
}

/** Returns the operation from the value at a path to what the callback makes of a copy of it. */
export function draftDifference(data, path, change) {
  const before = plain(valueAt(data, path, path.length));
  if (before === undefined) notApplied(`there is no value, path ${spelled(path)}`);
  const origins = new Map();
  const draft = draftOf(before, origins);
  const result = change(draft);
  const after = draft === null || typeof draft !== 'object' ? result : draft;
  checkDraft(after, origins, DEEPEST + LONGEST_PATH);
  return difference(path, before, after, origins);
}
