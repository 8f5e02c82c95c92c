/**
 * Components: their shapes, and the parsing of operations.
 * @module
 */
import { refuse, spelled } from '../errors.js';
import { DEEPEST, LARGEST, LONGEST_PATH, MOST_COMPONENTS, isText } from '../limits.js';

/**
 * A value of a document: null, a boolean, a whole number, a text, a list or an object. Numbers are whole, from
 * -9007199254740991 to 9007199254740991.
 * @typedef {null | boolean | number | string | readonly any[] | {[key: string]: any}} Data
 */
/**
 * A value that isn't changed in place, at any depth.
 * @template T
 * @typedef {0 extends (1 & T) ? T : T extends object ? {readonly [Key in keyof T]: Frozen<T[Key]>} : T} Frozen
 */
/**
 * Keys of objects and indices of lists. The last step of `si` and `sd` is an offset in UTF-16 units.
 * @typedef {Array<string | number>} Path
 */
/**
 * One change at one place.
 * @typedef {{p: Path, na: number} | {p: Path, si: string} | {p: Path, sd: string} | {p: Path, li: any} |
 *   {p: Path, ld: any} | {p: Path, ld: any, li: any} | {p: Path, oi: any} | {p: Path, od: any} |
 *   {p: Path, od: any, oi: any}} Component
 */
/**
 * Components that are applied one after the other.
 * @typedef {Component[]} Operation
 */
/** @typedef {'na' | 'si' | 'sd' | 'li' | 'ld' | 'lr' | 'oi' | 'od' | 'or'} Shape */

export const LEFT = 'left';
export const RIGHT = 'right';

const FOREIGN = ['lm', 'o', 't']; // of json0, not supported by this server
export const MEMBERS = ['ld', 'li', 'na', 'od', 'oi', 'sd', 'si'];
/** @type {Record<string, Shape>} */
const SHAPES = { na: 'na', si: 'si', sd: 'sd', li: 'li', ld: 'ld', ldli: 'lr', oi: 'oi', od: 'od', odoi: 'or' };
export const KEYED = new Set(['oi', 'od', 'or']);
export const REMOVING = new Set(['ld', 'lr', 'od', 'or']);

export function has(object, key) {
  return Object.prototype.hasOwnProperty.call(object, key);
}

export function isObject(value) {
  return value !== null && typeof value === 'object' && !Array.isArray(value);
}

export function notApplied(reason) {
  return refuse('ERR_OT_OP_NOT_APPLIED', reason);
}

function badlyFormed(reason) {
  return refuse('ERR_OT_OP_BADLY_FORMED', reason);
}

/** @returns {Shape} */
export function shapeOf(component) {
  let members = '';
  for (const member of MEMBERS) if (has(component, member)) members += member;
  return has(SHAPES, members) ? SHAPES[members] : badlyFormed(`${spelled(component)} has no known members`);
}

// The number of path steps to the value that is changed: all of them for a number, all but the last otherwise.
export function containerDepth(component, shape) {
  return shape === 'na' ? component.p.length : component.p.length - 1;
}

export function withStep(component, depth, step) {
  if (step > LARGEST) notApplied(`the index ${step} is too large`);
  const path = component.p.slice();
  path[depth] = step;
  return { ...component, p: path };
}

export function withLastStep(component, step) {
  return withStep(component, component.p.length - 1, step);
}

// Parsing ------------------------------------------------------------------------------------------------------

function isStep(step) {
  return isText(step) || (Number.isSafeInteger(step) && step >= 0);
}

/**
 * Copies a path.
 * @param {any} path
 * @param {string} place for the message of a refusal
 * @returns {Path}
 */
export function readPath(path, place) {
  if (!Array.isArray(path)) badlyFormed(`${place} has no path p`);
  if (path.length > LONGEST_PATH) badlyFormed(`${place}: the path has ${path.length} steps, at most ${LONGEST_PATH}`);
  const wrong = path.find((step) => !isStep(step));
  if (wrong !== undefined || path.includes(undefined)) badlyFormed(`${place}: ${spelled(wrong)} is no step of a path`);
  return path.slice();
}

function readComponent(component, at) {
  const place = `component ${at}`;
  if (!isObject(component)) badlyFormed(`${place} is ${spelled(component)}, and no object`);
  const foreign = FOREIGN.find((member) => has(component, member));
  if (foreign) badlyFormed(`${place}: the member ${foreign} isn't supported`);
  const shape = shapeOf(component);
  const read = { p: readPath(component.p, place) };
  const last = read.p[containerDepth(component, shape)];
  const wanted = KEYED.has(shape) ? 'string' : 'number';
  if (shape !== 'na' && typeof last !== wanted) {
    badlyFormed(`${place}: ${last === undefined ? 'an empty path' : `the last step ${spelled(last)}`} is no ${
      wanted === 'string' ? 'key' : 'index'}`);
  }
  for (const member of MEMBERS) {
    if (has(component, member)) read[member] = readMember(member, component[member], `${place}, ${member}`);
  }
  return read;
}

function readMember(member, value, place) {
  if (member === 'na') return readNumber(value, place);
  if (member !== 'si' && member !== 'sd') return readData(value, place);
  return isText(value) ? value : badlyFormed(`${place}: ${spelled(value)} is no text of whole characters`);
}

function readNumber(value, place) {
  if (Number.isSafeInteger(value)) return value + 0;
  return badlyFormed(`${place}: ${spelled(value)} is no whole number up to ${LARGEST}`);
}

function isPlain(value) {
  const prototype = Object.getPrototypeOf(value);
  return prototype === null || Object.getPrototypeOf(prototype) === null;
}

/**
 * Copies a value that a document can hold: null, booleans, whole numbers, texts, lists and objects of these.
 * @param {unknown} value
 * @param {string} [place] for the message of a refusal
 * @param {number} [room] levels
 * @returns {Data}
 */
export function readData(value, place = 'the data', room = DEEPEST) {
  if (value === null || typeof value === 'boolean' || isText(value)) return /** @type {Data} */ (value);
  if (typeof value === 'number') return readNumber(value, place);
  if (typeof value === 'string') return badlyFormed(`${place}: a text has half a surrogate pair`);
  if (typeof value !== 'object') return badlyFormed(`${place} is ${spelled(value)}, and no JSON`);
  if (room === 0) return badlyFormed(`${place} is more than ${DEEPEST} levels deep`);
  if (Array.isArray(value)) return Array.from(value, (item, at) => readData(item, `${place}[${at}]`, room - 1));
  if (!isPlain(value)) return badlyFormed(`${place} is of the class ${value.constructor.name}, and no plain object`);
  const wrong = Object.keys(value).find((key) => !isText(key));
  if (wrong !== undefined) return badlyFormed(`${place}: a key has half a surrogate pair`);
  const read = (key) => [key, readData(value[key], `${place}.${key}`, room - 1)];
  return Object.fromEntries(Object.keys(value).map(read));
}

/**
 * Copies the operation as the server parses it: without other members and without empty texts.
 * @param {unknown} operation
 * @param {number} [most] components
 * @returns {Operation}
 */
export function readOperation(operation, most = MOST_COMPONENTS) {
  if (!Array.isArray(operation)) return badlyFormed(`${spelled(operation)} is no list of components`);
  if (operation.length > most) badlyFormed(`${operation.length} components, at most ${most}`);
  const read = /** @type {any[]} */ (Array.from(operation, readComponent));
  return read.filter((component) => component.si !== '' && component.sd !== '');
}

/**
 * Whether a value has at most this many levels.
 * @param {Data} value
 * @param {number} [room]
 * @returns {boolean}
 */
export function isShallow(value, room = DEEPEST) {
  if (value === null || typeof value !== 'object') return true;
  return room > 0 && Object.keys(value).every((key) => isShallow(value[key], room - 1));
}

/**
 * Freezes a value and what it contains. What is frozen already isn't visited.
 * @param {any} value
 * @returns {any}
 */
export function frozen(value) {
  if (value === null || typeof value !== 'object' || Object.isFrozen(value)) return value;
  Object.freeze(value);
  for (const key of Object.keys(value)) frozen(value[key]);
  return value;
}

/**
 * Compares two values.
 * @param {Data | undefined} data
 * @param {Data | undefined} other
 * @returns {boolean}
 */
export function isSame(data, other) {
  if (data === other) return true;
  if (!data || !other || typeof data !== 'object' || typeof other !== 'object') return false;
  const keys = Object.keys(data);
  if (Array.isArray(data) !== Array.isArray(other) || keys.length !== Object.keys(other).length) return false;
  return keys.every((key) => has(other, key) && isSame(data[key], other[key]));
}
