/* Random edits of a document with a text, a list of objects, an object and a number. */

import { textChange } from '../../src/index.js';

/** Returns the document before the first edit; `far` is the number that edits change. */
export function startDocument(far) {
  return { t: '', l: [], o: {}, n: 0, far };
}

function textEdit({ random, pick }, { t }) {
  const points = [...t];
  const from = random(points.length + 1);
  const removed = random(3) ? 0 : random(5);
  const put = removed ? '' : pick(['a', '😀', 'bcd', 'é']);
  const after = [...points.slice(0, from), put, ...points.slice(from + removed)].join('');
  return textChange(['t'], t, after, from);
}

function listEdit({ random, pick }, { l }) {
  const at = random(l.length + 1);
  if (l.length < 6 || at === l.length) return [{ p: ['l', at], li: { s: pick(['', 'x']), n: 0 } }];
  return [{ p: ['l', at], ld: l[at], ...(random(2) ? { li: { s: 'new', n: 1 } } : {}) }];
}

function itemEdit({ random }, { l }) {
  const at = random(l.length);
  const kind = random(3);
  if (kind === 0) return [{ p: ['l', at, 'n'], na: 1 }];
  if (kind === 1) return [{ p: ['l', at, 's', 0], si: 'q' }];
  return [{ p: ['l', at], ld: l[at] }, { p: ['l', random(l.length)], li: l[at] }];
}

function keyEdit({ random, pick }) {
  const p = ['o', pick(['a', 'b', 'c'])];
  return pick([[{ p, oi: random(9) }], [{ p, od: null }], [{ p, od: 1, oi: { k: random(9) } }]]);
}

/** Returns an operation that is made for the document. */
export function randomEdit(chosen, data) {
  const { random } = chosen;
  const kind = random(7);
  if (kind < 2) return textEdit(chosen, data);
  if (kind === 2) return listEdit(chosen, data);
  if (kind < 5 && data.l.length > 0) return itemEdit(chosen, data);
  if (kind === 5) return [{ p: ['far'], na: random(3) - 1 }];
  return keyEdit(chosen);
}
