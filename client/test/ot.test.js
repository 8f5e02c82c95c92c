/* Operations: random cases against the model, the server's vectors, and the helpers. */

import assert from 'node:assert';
import fs from 'node:fs';
import { test } from 'node:test';
import { isDeepStrictEqual } from 'node:util';
import * as index from '../src/index.js';
import { apply, complete, compose, cross, invert, textChange, transformComponent, transformOffset } from '../src/ot/index.js';
import { firstPart, withShortRemoved } from '../src/parts.js';
import { randomDocuments } from './support/documents.js';
import * as model from './support/model.js';
import { OPTIONS } from './support/options.js';
import { seedOf } from './support/random.js';
import { insert } from './support/scripted.js';

const CASES = Number(process.env.CASES || 6000);

// Returns the result, or the code of a refusal.
function tried(action) {
  try {
    return { result: action() };
  } catch (error) {
    if (error instanceof index.Refusal || error instanceof model.Failure) return { code: error.code };
    throw error;
  }
}

function agree(what, got, wanted, details) {
  if (isDeepStrictEqual(got, wanted)) return;
  assert.fail(`${what}: ${JSON.stringify({ got, wanted, ...details })}`);
}

// Operations that are completed converge: both sides give one document.
function checkPair({ start, left, right, afterLeft, afterRight, isExact }) {
  const details = { start, left, right };
  agree('apply', apply(start, left), afterLeft, details);
  const got = tried(() => cross(left, right));
  agree('cross', got, tried(() => model.cross(left, right)), details);
  if (got.code) return;
  const one = tried(() => apply(afterRight, got.result.left));
  const other = tried(() => apply(afterLeft, got.result.right));
  agree('apply after cross', one, tried(() => model.apply(afterRight, got.result.left)), details);
  if (isExact) agree('convergence', one, other, details);
}

function checkCompose({ start, left, afterLeft }, second, end) {
  const composed = compose(left, second);
  agree('compose', apply(start, composed), end, { start, left, second, composed });
  assert.ok(composed.length <= left.length + second.length);
  agree('the first operation', apply(start, left), afterLeft);
}

function checkInvert({ start, left, right, afterLeft, afterRight }) {
  const inverse = invert(left, start);
  agree('invert', apply(afterLeft, inverse), start, { start, left, inverse });
  const crossed = tried(() => cross(left, right));
  if (crossed.code) return;
  // (what was done and undone, after another operation in between)
  const both = tried(() => apply(afterRight, crossed.result.left));
  const moved = tried(() => cross(inverse, crossed.result.right));
  if (both.code || moved.code) return;
  tried(() => apply(both.result, moved.result.left));
}

test('random operations against the model', OPTIONS, () => {
  const seed = seedOf('operations against the model');
  const documents = randomDocuments(seed);
  const count = {};
  for (let made = 0; made < CASES; made += 1) {
    const isExact = made % 3 > 0;
    const start = documents.data(4);
    const most = documents.pick([1, 1, 3, 12]);
    const [left, afterLeft] = documents.operation(start, most, isExact);
    const [right, afterRight] = documents.operation(start, most, isExact);
    const pair = { start, left, right, afterLeft, afterRight, isExact };
    checkPair(pair);
    const [second, end] = documents.operation(afterLeft, most, isExact);
    checkCompose(pair, second, end);
    checkInvert(pair);
    for (const kinds of left.flatMap((one) => right.map((other) => `${model.kindOf(one)} ${model.kindOf(other)}`))) {
      count[kinds] = (count[kinds] || 0) + 1;
    }
  }
  console.log(`pairs of shapes: ${Object.keys(count).length}, the rarest ${Math.min(...Object.values(count))} times`);
  assert.strictEqual(Object.keys(count).length, 81);
});

test('random pairs of edits of one small list, object or text', OPTIONS, () => {
  const documents = randomDocuments(seedOf('small pairs'));
  for (let made = 0; made < CASES; made += 1) {
    const start = documents.pick(['abc', 'a😀b', [1, [2, 'x'], { k: 3 }], { k: 'xy', l: [1], m: { k: 1 } }, [['abcdef'], 7]]);
    const most = documents.pick([1, 1, 2, 4]);
    const [left, afterLeft] = documents.operation(start, most, true);
    const [right, afterRight] = documents.operation(start, most, true);
    checkPair({ start, left, right, afterLeft, afterRight, isExact: true });
  }
});

test('a completed operation has the removed values, and does the same', OPTIONS, () => {
  const documents = randomDocuments(seedOf('completed operations'));
  for (let made = 0; made < CASES / 6; made += 1) {
    const start = documents.data(3);
    const [operation, end] = documents.operation(start, 4, false);
    const { operation: completed, data } = complete(start, operation);
    agree('complete', [apply(start, completed), data], [end, end], { start, operation, completed });
    agree('complete twice', complete(start, completed).operation, completed);
  }
});

test('a random change of a text, and its caret', OPTIONS, () => {
  const documents = randomDocuments(seedOf('texts'));
  for (let made = 0; made < CASES / 3; made += 1) {
    const before = documents.text(6);
    const after = documents.random(2) ? documents.text(6) : documents.edited(before);
    const caret = documents.random(after.length + 1);
    const change = textChange(['t'], before, after, caret);
    agree('textChange', model.apply({ t: before }, change).t, after, { before, after, caret, change });
    const offset = documents.offset(before);
    let wanted = { p: ['t', offset], si: '' };
    for (const component of change) [wanted] = model.transform('left', wanted, component);
    agree('transformOffset', transformOffset(offset, change, ['t']), wanted.p[1], { before, offset, change });
  }
});

const VECTORS = new URL('./vectors/', import.meta.url);
const files = fs.existsSync(VECTORS) ? fs.readdirSync(VECTORS).filter((name) => name.endsWith('.json')) : [];

// A result that the server refuses is null, or a code.
function agreeOrRefused(what, action, wanted, vector) {
  const isRefused = wanted === null || wanted.code !== undefined;
  const got = tried(action);
  if (isRefused) agree(what, Boolean(got.code), true, { vector });
  else agree(what, got, { result: wanted }, { vector });
}

function checkVector(vector) {
  const { document, left, right, afterLeft, afterRight, afterBoth } = vector;
  const { crossedLeft = vector.leftAfterRight, crossedRight = vector.rightAfterLeft } = vector;
  const dataOf = (after) => (after === null || after.code ? after : after.data);
  if (afterLeft !== undefined) agreeOrRefused('left', () => apply(document, left), dataOf(afterLeft), vector);
  if (afterRight !== undefined) agreeOrRefused('right', () => apply(document, right), dataOf(afterRight), vector);
  const crossed = tried(() => cross(left, right));
  if (vector.code !== undefined) {
    const both = tried(() => apply(apply(document, right), cross(left, right).left));
    agree('code', both.code, vector.code, { vector });
    return;
  }
  const refused = crossed.code ? null : crossed.result;
  if (crossedLeft !== undefined) agree('crossed left', refused && refused.left, crossedLeft, { vector });
  if (crossedRight !== undefined) agree('crossed right', refused && refused.right, crossedRight, { vector });
  if (afterBoth === undefined || !refused || !afterLeft) return;
  agreeOrRefused('after both', () => apply(dataOf(afterLeft), refused.right), dataOf(afterBoth), vector);
}

for (const name of files) {
  test(`the server's vectors ${name}`, OPTIONS, () => {
    const vectors = JSON.parse(fs.readFileSync(new URL(name, VECTORS), 'utf8'));
    assert.ok(vectors.length > 0);
    vectors.forEach(checkVector);
  });
}

test('a caret stays with its letters', OPTIONS, () => {
  assert.strictEqual(transformOffset(4, [{ p: ['t', 0], si: 'ab' }, { p: ['t', 1], sd: 'b' }], ['t']), 5);
  assert.strictEqual(transformOffset(4, [{ p: ['t', 4], si: 'ab' }, { p: ['u', 0], si: 'x' }], ['t']), 4);
  assert.strictEqual(transformOffset(4, [{ p: ['t', 2], sd: 'cdef' }], ['t']), 2);
  assert.strictEqual(transformOffset(4, [{ p: ['t'], od: 'abcdef', oi: 'x' }], ['t']), 0);
  assert.strictEqual(transformOffset(4, [{ p: [0], li: 'x' }, { p: [1, 0], si: 'ab' }], [0]), 6);
});

test('a change of a text is at the caret, and never cuts a surrogate pair', OPTIONS, () => {
  assert.deepStrictEqual(textChange([], 'aaaa', 'aaaaa', 3), insert(2, 'a'));
  assert.deepStrictEqual(textChange([], 'aaaa', 'aaa', 1), [{ p: [1], sd: 'a' }]);
  assert.deepStrictEqual(textChange([], 'a😀b', 'a😁b'), [{ p: [1], sd: '😀' }, { p: [1], si: '😁' }]);
  assert.deepStrictEqual(textChange([], 'a\u{1f600}b', 'a\u{1fa00}b'), [{ p: [1], sd: '\u{1f600}' }, { p: [1], si: '\u{1fa00}' }]);
  assert.deepStrictEqual(textChange([], '\u{1f600}', '\u{20600}'), [{ p: [0], sd: '\u{1f600}' }, { p: [0], si: '\u{20600}' }]);
  assert.deepStrictEqual(textChange([], 'one two', 'one three two', 10), insert(4, 'three '));
  assert.deepStrictEqual(textChange(['t'], 'same', 'same', 4), []);
  assert.deepStrictEqual(textChange(['t'], '', 'x'), [{ p: ['t', 0], si: 'x' }]);
  assert.deepStrictEqual(textChange(['t'], 'x', ''), [{ p: ['t', 0], sd: 'x' }]);
  assert.deepStrictEqual(textChange([], 'aXb', 'aYb'), [{ p: [1], sd: 'X' }, { p: [1], si: 'Y' }]);
});

test('successive operations are composed', OPTIONS, () => {
  assert.deepStrictEqual(compose(insert(1, 'ab'), insert(2, 'x')), insert(1, 'axb'));
  assert.deepStrictEqual(compose(insert(1, 'ab'), insert(3, 'x')), insert(1, 'abx'));
  assert.deepStrictEqual(compose(insert(1, 'ab'), insert(1, 'x')), insert(1, 'xab'));
  assert.strictEqual(compose(insert(1, 'ab'), insert(4, 'x')).length, 2);
  assert.strictEqual(compose(insert(1, 'ab'), insert(0, 'x')).length, 2);
  assert.deepStrictEqual(compose([{ p: [3], sd: 'd' }], [{ p: [2], sd: 'c' }]), [{ p: [2], sd: 'cd' }]);
  assert.deepStrictEqual(compose([{ p: [3], sd: 'd' }], [{ p: [3], sd: 'e' }]), [{ p: [3], sd: 'de' }]);
  assert.strictEqual(compose([{ p: [3], sd: 'd' }], [{ p: [1], sd: 'b' }]).length, 2);
  assert.deepStrictEqual(compose(insert(1, 'ab'), [{ p: [1], sd: 'ab' }]), []);
  assert.deepStrictEqual(compose(insert(1, 'abc'), [{ p: [2], sd: 'bc' }]), insert(1, 'a'));
  assert.strictEqual(compose(insert(1, 'ab'), [{ p: [2], sd: 'bc' }]).length, 2);
  assert.strictEqual(compose(insert(1, 'ab'), [{ p: [0], sd: 'xa' }]).length, 2);
  assert.throws(() => compose(insert(1, 'ab'), [{ p: [1], sd: 'x' }]), { code: 'ERR_OT_OP_NOT_APPLIED' });
  assert.deepStrictEqual(compose([{ p: ['n'], na: 2 }], [{ p: ['n'], na: 3 }]), [{ p: ['n'], na: 5 }]);
  assert.strictEqual(compose([{ p: ['n'], na: Number.MAX_SAFE_INTEGER }], [{ p: ['n'], na: 1 }]).length, 2);
  assert.strictEqual(compose([{ p: ['n'], na: -Number.MAX_SAFE_INTEGER }], [{ p: ['n'], na: -1 }]).length, 2);
  assert.deepStrictEqual(compose([{ p: ['n'], na: Number.MAX_SAFE_INTEGER - 1 }], [{ p: ['n'], na: 1 }]), [{ p: ['n'], na: Number.MAX_SAFE_INTEGER }]);
  assert.strictEqual(compose([{ p: ['n'], na: 2 }], [{ p: ['m'], na: 3 }]).length, 2);
  assert.strictEqual(compose([{ p: ['a', 0], si: 'x' }], [{ p: ['b', 0], si: 'x' }]).length, 2);
  assert.strictEqual(compose([{ p: ['a', 'b', 0], si: 'x' }], [{ p: ['a', 0], si: 'x' }]).length, 2);
  const first = insert(1, 'ab');
  compose(first, insert(2, 'x'));
  assert.deepStrictEqual(first, insert(1, 'ab'));
});

test('each shape is inverted', OPTIONS, () => {
  const before = { n: 1, t: 'abc', l: [1, [2]], o: { k: 'v' } };
  const cases = [
    [{ p: ['n'], na: 5 }, { p: ['n'], na: -5 }],
    [{ p: ['n'], na: 0 }, { p: ['n'], na: 0 }],
    [{ p: ['t', 1], si: 'x' }, { p: ['t', 1], sd: 'x' }],
    [{ p: ['t', 1], sd: 'bc' }, { p: ['t', 1], si: 'bc' }],
    [{ p: ['l', 1], li: 7 }, { p: ['l', 1], ld: 7 }],
    [{ p: ['l', 1], ld: 'wrong' }, { p: ['l', 1], li: [2] }],
    [{ p: ['l', 1], ld: 'wrong', li: 8 }, { p: ['l', 1], ld: 8, li: [2] }],
    [{ p: ['o', 'm'], oi: 9 }, { p: ['o', 'm'], od: 9 }],
    [{ p: ['o', 'k'], oi: 9 }, { p: ['o', 'k'], od: 9, oi: 'v' }],
    [{ p: ['o', 'k'], od: 'wrong' }, { p: ['o', 'k'], oi: 'v' }],
    [{ p: ['o', 'k'], od: 'wrong', oi: 9 }, { p: ['o', 'k'], od: 9, oi: 'v' }],
  ];
  for (const [component, inverse] of cases) {
    assert.deepStrictEqual(invert([component], before), [inverse]);
    assert.deepStrictEqual(apply(apply(before, [component]), [inverse]), before);
  }
  assert.deepStrictEqual(invert([{ p: ['o', 'none'], od: 1 }], before), []);
  assert.throws(() => invert([{ p: ['t', 9], si: 'x' }], before), { code: 'ERR_OT_OP_NOT_APPLIED' });
});

test('a value is never changed in place', OPTIONS, () => {
  const before = { l: [{ t: 'a' }], o: { k: 1 } };
  const frozen = JSON.stringify(before);
  const after = apply(before, [
    { p: ['l', 0, 't', 0], si: 'x' }, { p: ['l', 1], li: 1 }, { p: ['l', 0], ld: 0 }, { p: ['o', 'k'], od: 1 }, { p: ['l', 0], ld: 1, li: 2 },
  ]);
  assert.deepStrictEqual([JSON.stringify(before), after], [frozen, { l: [2], o: {} }]);
  const same = apply(before, [{ p: ['l', 0, 't', 0], si: 'x' }]);
  assert.strictEqual(same.o, before.o);
});

test('a transform that raises an index or offset too far is refused', OPTIONS, () => {
  const far = Number.MAX_SAFE_INTEGER;
  const cases = [
    [{ p: ['l', far], li: 1 }, { p: ['l', 0], li: 1 }],
    [{ p: ['l', far], ld: 1 }, { p: ['l', 0], li: 1 }],
    [{ p: ['l', far, 'k'], oi: 1 }, { p: ['l', 0], li: 1 }],
    [{ p: ['t', far], si: 'x' }, { p: ['t', 0], si: 'x' }],
  ];
  for (const [component, other] of cases) {
    assert.throws(() => transformComponent(component, other, 'left'), { code: 'ERR_OT_OP_NOT_APPLIED', message: /too large/ });
    const near = { ...component, p: component.p.map((step) => (step === far ? far - 1 : step)) };
    assert.deepStrictEqual(transformComponent(near, other, 'left')[0].p, component.p);
  }
  const cut = [{ p: [0], sd: '😀' }, { p: [1], si: 'x' }];
  assert.throws(() => transformComponent(...cut, 'left'), { code: 'ERR_OT_OP_NOT_APPLIED', message: /inside a surrogate pair/ });
});

test('an offset is refused inside a surrogate pair only', OPTIONS, () => {
  const first = '\u{10000}';
  const last = '\u{10ffff}';
  for (const pair of [first, last, '\ud800\udfff', '\udbff\udc00']) {
    for (const text of [`a${pair}b`, `\ud7ff${pair}\ue000`, `${pair}${pair}`]) {
      for (let offset = 0; offset <= text.length; offset += 1) {
        const isWhole = !/[\ud800-\udfff]/u.test(text.slice(0, offset));
        const inserted = tried(() => apply(text, insert(offset, 'x')));
        agree('insert', inserted.code === undefined, isWhole, { text, offset });
      }
    }
  }
});

test('a step that is a text differs from each index', OPTIONS, () => {
  const inside = { p: ['0', 'k'], oi: 1 };
  for (const other of [{ p: [0], ld: 1 }, { p: [0], li: 1 }, { p: [0], ld: 1, li: 2 }, { p: ['0', 0], si: 'x' }]) {
    assert.deepStrictEqual(transformComponent(inside, other, 'left'), [inside]);
  }
  assert.deepStrictEqual(transformComponent({ p: [0, 'k'], oi: 1 }, { p: ['0'], od: 1 }, 'left'), [{ p: [0, 'k'], oi: 1 }]);
});

test('256 components against 256 are crossed in a second', OPTIONS, () => {
  const left = Array.from({ length: 256 }, (_, at) => ({ p: ['l', at], li: at }));
  const began = process.cpuUsage();
  const crossed = cross(left, left);
  const { user } = process.cpuUsage(began);
  assert.deepStrictEqual([crossed.left.length, crossed.right.length], [256, 256]);
  assert.ok(user < 1000000, `${user} microseconds`);
});

test('a part has at most 256 components and fits into its room', OPTIONS, () => {
  const many = Array.from({ length: 600 }, (_, at) => ({ p: ['l', at], li: at }));
  const sizes = [];
  for (let rest = many; rest.length > 0;) {
    const parts = firstPart(rest, 1e6);
    sizes.push(parts.part.length);
    rest = parts.rest;
  }
  assert.deepStrictEqual(sizes, [256, 256, 88]);
  assert.deepStrictEqual(firstPart([], 10), { part: [], rest: [] });
  const text = 'ab😀cd😀'.repeat(40);
  for (const operation of [[{ p: ['t', 3], si: text }], [{ p: ['t', 3], sd: text }, { p: ['k'], oi: 1 }]]) {
    let document = { t: operation[0].si ? 'xyz!' : `xyz${text}!` };
    const end = apply(document, operation);
    let count = 0;
    for (let rest = operation; rest.length > 0; count += 1) {
      const { part, rest: next } = firstPart(rest, 200);
      assert.ok(Buffer.byteLength(JSON.stringify(part)) <= 201, JSON.stringify(part));
      document = apply(document, part);
      rest = next;
    }
    assert.ok(count > 2);
    assert.deepStrictEqual(document, end);
  }
  for (const count of [74, 75, 76, 77]) {
    for (let rest = [{ p: ['t', 0], sd: '😀'.repeat(count) }]; rest.length > 0;) {
      const { part, rest: next } = firstPart(rest, 60);
      assert.ok(part.every(({ sd }) => !/[\ud800-\udfff]/u.test(sd)), JSON.stringify(part));
      rest = next;
    }
  }
  for (let rest = many; rest.length > 0;) {
    const { part, rest: next } = firstPart(rest, 500);
    assert.ok(JSON.stringify(part).length <= 501 && part.length > 10);
    rest = next.length > 20 ? next : [];
  }
  const long = 'x'.repeat(300);
  assert.deepStrictEqual(firstPart([{ p: ['k'], od: long }, { p: [0], ld: [long], li: 1 }, { p: ['l'], od: 'y' }], 200).part, [
    { p: ['k'], od: null }, { p: [0], ld: null, li: 1 }, { p: ['l'], od: 'y' },
  ]);
  const wide = [{ p: ['k'], oi: long }];
  assert.deepStrictEqual(firstPart(wide, 200), { part: wide, rest: [] });
  const fits = [{ p: ['k'], od: 'x' }];
  assert.strictEqual(withShortRemoved(fits, 200), fits);
  assert.deepStrictEqual(withShortRemoved([{ p: ['k'], od: long, oi: 1 }, { p: ['n'], na: 1 }], 200), [{ p: ['k'], od: null, oi: 1 }, { p: ['n'], na: 1 }]);
});

test('the exports', OPTIONS, () => {
  assert.deepStrictEqual(Object.keys(index).sort(), [
    'Client', 'Cluster', 'Doc', 'Emitter', 'Refusal', 'UndoManager', 'apply', 'bindText', 'bucketOf', 'complete', 'compose', 'cross',
    'customStorage', 'difference', 'indexedDbStorage', 'invert', 'textChange', 'transformComponent', 'transformOffset',
    'transformPosition',
  ]);
});
