/* The parts that an edit is sent in, and contents, at their limits. */

import assert from 'node:assert';
import { test } from 'node:test';
import { applyContent, crossContents, isComplete, isComposable } from '../src/content.js';
import { spelled } from '../src/errors.js';
import { LONGEST_COMPOSED, LONGEST_MESSAGE, MOST_COMPOSED, isName, isSendable } from '../src/limits.js';
import { firstPart, withShortRemoved } from '../src/parts.js';
import { OPTIONS } from './support/options.js';

const CREATE = { create: { type: 'json0', data: 1 } };
const ADD = { op: [{ p: [], na: 1 }] };

// Returns the bytes that the components take in a message, with a comma each.
function sizeOf(...components) {
  return components.reduce((sum, it) => sum + Buffer.byteLength(JSON.stringify(it)) + 1, 0);
}

test('a removed value that just fits is sent, and one byte more is sent as null', OPTIONS, () => {
  for (const removing of [{ p: ['k'], od: 'xyz' }, { p: [0], ld: 'xyz', li: 1 }]) {
    const size = sizeOf(removing);
    assert.deepStrictEqual(firstPart([removing], size).part, [removing]);
    const short = { ...removing, [removing.p[0] === 'k' ? 'od' : 'ld']: null };
    assert.deepStrictEqual(firstPart([removing], size - 1).part, [short]);
  }
});

test('a text that just fits is whole, and one byte more is halved', OPTIONS, () => {
  const insert = { p: ['t', 3], si: 'abcd' };
  assert.deepStrictEqual(firstPart([insert], sizeOf(insert)), { part: [insert], rest: [] });
  assert.deepStrictEqual(firstPart([insert], sizeOf(insert) - 1), {
    part: [{ p: ['t', 3], si: 'ab' }], rest: [{ p: ['t', 5], si: 'cd' }],
  });
  const deletes = { p: ['t', 3], sd: 'abcd' };
  assert.deepStrictEqual(firstPart([deletes], sizeOf(deletes) - 1), {
    part: [{ p: ['t', 3], sd: 'ab' }], rest: [{ p: ['t', 3], sd: 'cd' }],
  });
});

test('a text whose middle is inside a surrogate pair is cut after the pair', OPTIONS, () => {
  const insert = { p: ['t', 0], si: '😀a' };
  assert.deepStrictEqual(firstPart([insert], sizeOf(insert) - 1), {
    part: [{ p: ['t', 0], si: '😀' }], rest: [{ p: ['t', 2], si: 'a' }],
  });
});

test('components that just fit together are one part', OPTIONS, () => {
  const both = [{ p: ['n'], na: 1 }, { p: ['m'], na: 2 }];
  assert.deepStrictEqual(firstPart(both, sizeOf(...both)), { part: both, rest: [] });
  assert.deepStrictEqual(firstPart(both, sizeOf(...both) - 1), { part: [both[0]], rest: [both[1]] });
});

test('an operation that just fits keeps its removed values', OPTIONS, () => {
  const operation = [{ p: ['k'], od: 'xyz' }];
  const size = Buffer.byteLength(JSON.stringify(operation));
  assert.strictEqual(withShortRemoved(operation, size), operation);
  assert.deepStrictEqual(withShortRemoved(operation, size - 1), [{ p: ['k'], od: null }]);
});

test('a message has at most 1,048,576 bytes, and a name 200', OPTIONS, () => {
  const long = 'é'.repeat(LONGEST_MESSAGE / 2);
  assert.deepStrictEqual([long, `${long}a`, `${long}é`].map(isSendable), [true, false, false]);
  assert.deepStrictEqual(['', 'é'.repeat(100), `${'é'.repeat(100)}a`].map(isName), [false, true, false]);
});

test('a value of more than 60 characters is shortened in a message', OPTIONS, () => {
  const circle = {};
  circle.of = circle;
  const spelt = [0, -0, NaN, 'a', null, undefined, circle].map(spelled);
  assert.deepStrictEqual(spelt, ['0', '0', 'NaN', '"a"', 'null', 'undefined', '[object Object]']);
  assert.strictEqual(spelled('x'.repeat(58)), `"${'x'.repeat(58)}"`);
  assert.strictEqual(spelled('x'.repeat(59)), `"${'x'.repeat(56)}...`);
});

test('operations are composed up to 64 components and 65,536 characters', OPTIONS, () => {
  assert.strictEqual(isComposable(MOST_COMPOSED, LONGEST_COMPOSED), true);
  assert.strictEqual(isComposable(MOST_COMPOSED + 1, 1), false);
  assert.strictEqual(isComposable(1, LONGEST_COMPOSED + 1), false);
});

test('a content without a document', OPTIONS, () => {
  assert.strictEqual(applyContent(undefined, CREATE), 1);
  assert.strictEqual(applyContent(undefined, { del: true }), undefined);
  assert.throws(() => applyContent(undefined, ADD), { code: 'ERR_DOC_DOES_NOT_EXIST' });
  assert.throws(() => applyContent(1, CREATE), { code: 'ERR_DOC_ALREADY_CREATED' });
  assert.strictEqual(isComplete(undefined, { op: [{ p: ['k'], oi: 1 }] }), true);
  assert.strictEqual(isComplete({ k: 0 }, { op: [{ p: ['k'], oi: 1 }] }), false);
  assert.strictEqual(isComplete({ k: 0 }, { op: [{ p: ['k'], od: 0, oi: 1 }] }), true);
  assert.strictEqual(isComplete({ k: 0 }, CREATE), true);
});

test('each pair of kinds of contents', OPTIONS, () => {
  for (const own of [CREATE, ADD]) {
    assert.throws(() => crossContents(own, CREATE), { code: 'ERR_DOC_ALREADY_CREATED' });
    assert.throws(() => crossContents(own, { del: true }), { code: 'ERR_DOC_WAS_DELETED' });
  }
  assert.throws(() => crossContents(CREATE, ADD), { code: 'ERR_DOC_ALREADY_CREATED' });
  assert.deepStrictEqual(crossContents(ADD, ADD), { own: ADD, stored: ADD });
  for (const stored of [ADD, { del: true }]) {
    assert.deepStrictEqual(crossContents({ del: true }, stored), { own: { del: true }, stored: null });
  }
});
