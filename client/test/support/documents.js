/* Random documents, operations and texts. The model makes the operations, so that the tested code can't shape them. */

import { apply, Failure } from './model.js';
import { choices } from './random.js';

const KEYS = ['k', 'm', '__proto__', 'constructor', '0', '', 'toString', 'é😀'];
const PIECES = ['a', 'b', 'xy', '😀', 'é', '🎉🎉', 'abcabc', '\u2028'];

export function randomDocuments(seed) {
  const { random, pick } = choices(seed);
  const several = (most, make) => Array.from({ length: random(most + 1) }, make);
  const text = (most) => several(most, () => pick(PIECES)).join('');

  function data(depth) {
    const kind = random(depth > 0 ? 8 : 4);
    if (kind === 0) return random(9) - 4;
    if (kind === 1) return pick([null, true]);
    if (kind < 4) return text(5);
    if (kind < 6) return several(4, () => data(depth - 1));
    return Object.fromEntries(several(3, () => [pick(KEYS), data(depth - 1)]));
  }

  function place(document) {
    const path = [];
    let value = document;
    while (value !== null && typeof value === 'object' && random(5) > 0) {
      const keys = Object.keys(value);
      if (keys.length === 0) break;
      const key = pick(keys);
      path.push(Array.isArray(value) ? Number(key) : key);
      value = value[key];
    }
    return { path, value };
  }

  function offset(value) {
    const points = [...value];
    return points.slice(0, random(points.length + 1)).join('').length;
  }

  function textComponent(path, value) {
    const [from, to] = [offset(value), offset(value)].sort((one, other) => one - other);
    if (from === to || random(2)) return { p: [...path, from], si: text(2) || 'z' };
    return { p: [...path, from], sd: value.slice(from, to) };
  }

  function listComponent(path, list, isExact) {
    if (list.length === 0 || random(2)) return { p: [...path, random(list.length + 1)], li: data(1) };
    const at = random(list.length);
    return { p: [...path, at], ld: isExact || random(6) ? list[at] : 'not it', ...(random(2) ? { li: data(1) } : {}) };
  }

  function keyComponent(path, object, isExact) {
    const key = pick(KEYS);
    const p = [...path, key];
    const isThere = Object.hasOwn(object, key);
    if (isExact ? !isThere : random(3) === 0) return { p, oi: data(1) };
    return { p, od: isThere ? object[key] : null, ...(random(2) ? { oi: data(1) } : {}) };
  }

  function component(document, isExact) {
    const { path, value } = place(document);
    if (typeof value === 'number') return { p: path, na: random(9) - 4 };
    if (typeof value === 'string') return textComponent(path, value);
    if (Array.isArray(value)) return listComponent(path, value, isExact);
    return value === null || typeof value !== 'object' ? null : keyComponent(path, value, isExact);
  }

  // Returns an operation of some components, and the document after it. An exact one is completed by the document.
  function operation(document, most, isExact) {
    const made = [];
    let present = document;
    const wanted = 1 + random(most);
    for (let tries = 0; made.length < wanted && tries < 40; tries += 1) {
      const one = component(present, isExact);
      if (one !== null) {
        try {
          present = apply(present, [one]);
          made.push(one);
        } catch (error) {
          if (!(error instanceof Failure)) throw error;
        }
      }
    }
    return [made, present];
  }

  // A text with a part replaced, as an editor does.
  function edited(value) {
    const [from, to] = [offset(value), offset(value)].sort((one, other) => one - other);
    return value.slice(0, from) + text(2) + value.slice(to);
  }

  return { random, pick, text, data, offset, operation, edited };
}
