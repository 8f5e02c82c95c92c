/* Edits by values and drafts: differences of random values against the model, exact ones, and clients at once. */

import assert from 'node:assert';
import fs from 'node:fs';
import { test } from 'node:test';
import { isDeepStrictEqual } from 'node:util';
import { apply, complete, difference } from '../src/index.js';
import { MOST_COMPONENTS, MOST_DIFFERENCES } from '../src/limits.js';
import { randomDocuments } from './support/documents.js';
import * as model from './support/model.js';
import { mutator } from './support/mutations.js';
import { Net } from './support/net.js';
import { OPTIONS } from './support/options.js';
import { choices, seedOf } from './support/random.js';
import { absent, loaded, started } from './support/scripted.js';

const CASES = Number(process.env.CASES || 10000);
const RUNS = Number(process.env.RUNS || 12);

function copyOf(value) {
  return structuredClone(value);
}

// Returns the operation that the client sends for an edit of the data, and the data after it.
function sent(data, edit) {
  const { doc, socket } = loaded(data);
  const stored = edit(doc);
  const [message] = socket.taken();
  return { op: message ? message.op : [], data: doc.data, stored };
}

function opOf(data, edit) {
  return sent(data, edit).op;
}

async function codeOf(promise) {
  return promise.then(() => null, ({ code }) => code);
}

// Differences --------------------------------------------------------------------------------------------------

function checkDifference(before, after, details) {
  const operation = difference(['root'], before, after);
  const whole = { root: before };
  assert.deepStrictEqual(model.apply(whole, operation), { root: after }, details);
  assert.deepStrictEqual(apply(whole, operation), { root: after }, details);
  assert.deepStrictEqual(complete(whole, operation).operation, operation, details);
  assert.strictEqual(operation.length === 0, isDeepStrictEqual(before, after), details);
  assert.deepStrictEqual(difference(['root'], after, copyOf(after)), [], details);
}

test('the difference of random values leads from one to the other', OPTIONS, () => {
  const seed = seedOf('differences');
  const documents = randomDocuments(seed);
  for (let made = 0; made < CASES; made += 1) {
    const before = documents.data(4);
    const after = documents.random(4) ? documents.operation(before, 6, true)[1] : documents.data(4);
    checkDifference(before, after, `SEED=${seed}`);
  }
});

test('change submits what the callback makes of the draft', OPTIONS, () => {
  const seed = seedOf('drafts');
  const documents = randomDocuments(seed);
  const mutate = mutator(documents);
  for (let made = 0; made < CASES; made += 1) {
    const before = documents.data(4);
    const whole = { root: before };
    let after;
    const change = (draft) => {
      mutate(draft);
      after = copyOf(draft);
    };
    const { op, data } = sent(whole, (doc) => doc.change(change));
    assert.deepStrictEqual(data, after, `SEED=${seed}`);
    assert.deepStrictEqual(model.apply(whole, op), after, `SEED=${seed}`);
    assert.deepStrictEqual(whole, { root: before }, `SEED=${seed}`);
  }
});

// Returns the length of a longest common subsequence by its definition.
function commonLength(one, other) {
  if (one.length === 0 || other.length === 0) return 0;
  const [first, ...rest] = one;
  const at = other.indexOf(first);
  const without = commonLength(rest, other);
  return at < 0 ? without : Math.max(without, 1 + commonLength(rest, other.slice(at + 1)));
}

test('a list keeps the items of a longest common subsequence', OPTIONS, () => {
  const seed = seedOf('subsequences');
  const { random } = choices(seed);
  for (let made = 0; made < CASES / 4; made += 1) {
    const several = () => Array.from({ length: random(9) }, () => random(4));
    const [before, after] = [several(), several()];
    const operation = difference([], before, after);
    assert.deepStrictEqual(model.apply(before, operation), after);
    const kept = before.length - operation.filter((one) => 'ld' in one).length;
    assert.strictEqual(kept, commonLength(before, after), JSON.stringify({ seed, before, after, operation }));
    const shorter = Math.max(before.length, after.length) - kept;
    assert.ok(operation.length >= shorter, JSON.stringify({ seed, before, after, operation }));
  }
});

test('exact differences', OPTIONS, () => {
  const cases = [
    [{ a: 1, b: 2 }, { b: 3, c: 4 }, [{ p: ['a'], od: 1 }, { p: ['b'], od: 2, oi: 3 }, { p: ['c'], oi: 4 }]],
    [{ t: 'one two' }, { t: 'one 2 two' }, [{ p: ['t', 4], si: '2 ' }]],
    [{ t: 'abc' }, { t: 'axc' }, [{ p: ['t', 1], sd: 'b' }, { p: ['t', 1], si: 'x' }]],
    [{ t: 'a😀b' }, { t: 'a😁b' }, [{ p: ['t', 1], sd: '😀' }, { p: ['t', 1], si: '😁' }]],
    [{ t: 'a😀b' }, { t: 'a🐀b' }, [{ p: ['t', 1], sd: '😀' }, { p: ['t', 1], si: '🐀' }]],
    [[1, 2, 3], [0, 1, 3, 4], [{ p: [0], li: 0 }, { p: [2], ld: 2 }, { p: [3], li: 4 }]],
    [[1, 2, 3], [1, 5, 3], [{ p: [1], ld: 2, li: 5 }]],
    [[{ t: 'a' }, 1], [{ t: 'ab' }, 1], [{ p: [0, 't', 1], si: 'b' }]],
    [{ a: [] }, { a: {} }, [{ p: ['a'], od: [], oi: {} }]],
    [{ a: null }, { a: { b: 1 } }, [{ p: ['a'], od: null, oi: { b: 1 } }]],
    [{ a: { b: [1] } }, { a: { b: [1] } }, []],
    [3, 5, [{ p: [], na: 2 }]],
    ['ab', 'b', [{ p: [0], sd: 'a' }]],
    [Number.MAX_SAFE_INTEGER, -1, [{ p: [], na: -Number.MAX_SAFE_INTEGER }, { p: [], na: -1 }]],
    [Number.MAX_SAFE_INTEGER, 0, [{ p: [], na: -Number.MAX_SAFE_INTEGER }]],
  ];
  for (const [before, after, operation] of cases) {
    assert.deepStrictEqual(difference([], before, after), operation);
    assert.deepStrictEqual(model.apply(before, operation), after);
  }
  for (const [before, after] of [['a', []], [null, 1], [{}, []], [1, true], [1, null], [null, 'a']]) {
    assert.throws(() => difference([], before, after), { code: 'ERR_OT_OP_NOT_APPLIED' });
  }
});

test('lists that differ by too many items keep their common prefix and suffix', OPTIONS, () => {
  const numbers = (from, length) => Array.from({ length }, (_, at) => from + at);
  for (const [removed, isKept] of [[MOST_DIFFERENCES, true], [MOST_DIFFERENCES + 1, false]]) {
    const before = ['a', ...numbers(0, removed), 'm', 'n', 'z'];
    const after = ['a', 'm', 'z'];
    const shortened = ['a', ...numbers(0, removed - 1), 'm', 'n', 'z'];
    for (const list of [before, shortened]) {
      assert.deepStrictEqual(model.apply(list, difference([], list, after)), after);
    }
    const operation = difference([], shortened, after);
    assert.strictEqual(operation.some((one) => one.ld === 'm' || one.sd === 'm'), !isKept);
    assert.ok(!operation.some((one) => one.ld === 'a' || one.ld === 'z'));
  }
});

test('a path of the longest length is replaced, and not entered', OPTIONS, () => {
  const nested = (leaf, depth) => (depth === 0 ? leaf : { k: nested(leaf, depth - 1) });
  for (const [depth, length] of [[49, 50], [50, 50], [51, 50], [60, 50]]) {
    const [before, after] = [nested('ab', depth), nested('a', depth)];
    const operation = difference([], before, after);
    assert.deepStrictEqual(operation.map(({ p }) => p.length), [length]);
    assert.deepStrictEqual(model.apply(before, operation), after);
  }
});

// Edits of a document ------------------------------------------------------------------------------------------

test('set, insert, removeAt, removeRange and add', OPTIONS, () => {
  const data = { t: 'a😀b', l: [1, [2], 3], o: { k: 1 }, n: 5, z: null };
  const cases = [
    [(doc) => doc.set(['n'], 6), [{ p: ['n'], od: 5, oi: 6 }]],
    [(doc) => doc.set(['t'], 'ab'), [{ p: ['t'], od: 'a😀b', oi: 'ab' }]],
    [(doc) => doc.set(['new'], { a: 1 }), [{ p: ['new'], oi: { a: 1 } }]],
    [(doc) => doc.set(['l', 1], null), [{ p: ['l', 1], ld: [2], li: null }]],
    [(doc) => doc.set(['o', 'k'], 1), []],
    [(doc) => doc.set(['o'], { k: 1 }), []],
    [(doc) => doc.set(['z'], null), []],
    [(doc) => doc.set(['y'], null), [{ p: ['y'], oi: null }]],
    [(doc) => doc.insert(['t'], 3, 'c'), [{ p: ['t', 3], si: 'c' }]],
    [(doc) => doc.insert(['t'], 3, ''), []],
    [(doc) => doc.insert(['l'], 3, { a: 1 }), [{ p: ['l', 3], li: { a: 1 } }]],
    [(doc) => doc.removeAt(['o', 'k']), [{ p: ['o', 'k'], od: 1 }]],
    [(doc) => doc.removeAt(['o', 'no']), []],
    [(doc) => doc.removeAt(['l', 1]), [{ p: ['l', 1], ld: [2] }]],
    [(doc) => doc.removeRange(['l'], 1, 2), [{ p: ['l', 1], ld: [2] }, { p: ['l', 1], ld: 3 }]],
    [(doc) => doc.removeRange(['l'], 3, 0), []],
    [(doc) => doc.removeRange(['t'], 1, 2), [{ p: ['t', 1], sd: '😀' }]],
    [(doc) => doc.removeRange(['t'], 4, 0), []],
    [(doc) => doc.add(['n'], -2), [{ p: ['n'], na: -2 }]],
    [(doc) => doc.add(['n'], 0), []],
    [(doc) => doc.change((draft) => draft.l.push(4)), [{ p: ['l', 3], li: 4 }]],
    [(doc) => doc.change((text) => `${text}!`, { path: ['t'] }), [{ p: ['t', 4], si: '!' }]],
    [(doc) => doc.change((number) => number * 2, { path: ['n'] }), [{ p: ['n'], od: 5, oi: 10 }]],
    [(doc) => doc.change(() => [], { path: ['z'] }), [{ p: ['z'], od: null, oi: [] }]],
    [(doc) => doc.change((list) => list.reverse(), { path: ['l', 1] }), []],
    [(doc) => doc.change((draft) => ({ ...draft, n: 6 })), []],
  ];
  for (const [edit, operation] of cases) {
    const { op, data: after } = sent(data, edit);
    assert.deepStrictEqual(op, operation, String(edit));
    assert.deepStrictEqual(after, model.apply(data, operation), String(edit));
  }
});

test('an edit without an effect is fulfilled at once', OPTIONS, async () => {
  const { stored } = sent({ n: 1 }, (doc) => doc.change((draft) => (draft.n = 1)));
  assert.deepStrictEqual(await stored, { version: null });
});

test('an item that was changed and moved by others in the draft is edited in place', OPTIONS, () => {
  const cards = [{ id: 1, title: 'one' }, { id: 2, title: 'two' }, { id: 3, title: 'three' }];
  const edit = (doc) => doc.change((draft) => {
    draft.shift();
    draft[1].title = 'three!';
    draft.unshift({ id: 9, title: 'nine' }, { id: 8, title: 'eight' });
    draft[2].title = 'TWO';
  });
  const { op, data } = sent(cards, edit);
  const inside = op.filter(({ p }) => p.length > 1);
  assert.deepStrictEqual(inside.filter(({ p }) => p[0] > 1), [
    { p: [2, 'title', 0], sd: 'two' }, { p: [2, 'title', 0], si: 'TWO' }, { p: [3, 'title', 5], si: '!' },
  ]);
  assert.deepStrictEqual(data.map(({ id }) => id), [9, 8, 2, 3]);
});

test('which edit fails with what', OPTIONS, async () => {
  const data = { t: 'a😀b', l: [1], o: {}, n: 1 };
  const cases = {
    ERR_OT_OP_BADLY_FORMED: [
      (doc) => doc.set([], 1), (doc) => doc.set('n', 1), (doc) => doc.set(undefined, 1), (doc) => doc.set(['n'], 1.5),
      (doc) => doc.set(['n'], undefined), (doc) => doc.set(['n'], NaN), (doc) => doc.set(['n'], '\ud800'),
      (doc) => doc.set(['o', -1], 1), (doc) => doc.insert(['t'], 0, 1), (doc) => doc.insert(['t'], 'k', 'a'),
      (doc) => doc.insert(['l'], -1, 1), (doc) => doc.insert(['l'], 0, undefined), (doc) => doc.removeAt([]),
      (doc) => doc.removeAt(undefined), (doc) => doc.removeRange(['l'], 0, -1), (doc) => doc.removeRange(['l'], -1, 1),
      (doc) => doc.removeRange(['l'], 0, 0.5), (doc) => doc.removeRange(['l'], 0), (doc) => doc.removeRange(['t'], 0, 2),
      (doc) => doc.add(['n'], 0.5), (doc) => doc.add(['n'], '1'), (doc) => doc.remove(['o']),
      (doc) => doc.change((draft) => (draft.n = 0.5)), (doc) => doc.change((draft) => (draft.x = undefined)),
      (doc) => doc.change((draft) => (draft.x = new Date())), (doc) => doc.change((draft) => (draft.o = new Date())),
      (doc) => doc.change((draft) => (draft.l[3] = 1)), (doc) => doc.change((draft) => (draft.t = '\udc00')),
      (doc) => doc.change((draft) => (draft.x = draft)), (doc) => doc.change(() => undefined, { path: ['n'] }),
    ],
    ERR_OT_OP_NOT_APPLIED: [
      (doc) => doc.set(['l', 1], 1), (doc) => doc.set(['x', 'y'], 1), (doc) => doc.set(['t', 0], 'a'),
      (doc) => doc.insert(['n'], 0, 1), (doc) => doc.insert(['x'], 0, 1), (doc) => doc.insert(['l'], 2, 1),
      (doc) => doc.insert(['t'], 2, 'a'), (doc) => doc.removeAt(['l', 1]), (doc) => doc.removeAt(['t', 1]),
      (doc) => doc.removeRange(['l'], 0, 2), (doc) => doc.removeRange(['t'], 3, 2), (doc) => doc.removeRange(['n'], 0, 1),
      (doc) => doc.removeRange(['t'], 0, 1e9), (doc) => doc.add(['t'], 1), (doc) => doc.add(['n'], Number.MAX_SAFE_INTEGER),
      (doc) => doc.change(() => 1, { path: ['x'] }), (doc) => doc.change(() => doc.add(['n'], 1)),
    ],
  };
  for (const [code, edits] of Object.entries(cases)) {
    for (const edit of edits) {
      const { doc } = loaded(data);
      assert.strictEqual(await codeOf(edit(doc)), code, String(edit));
      if (!/=> doc.add\(\['n'\], 1\)/.test(edit)) assert.deepStrictEqual([doc.data, doc.pending], [data, 0], String(edit));
    }
  }
  const error = new Error('of the callback');
  const fail = () => {
    throw error;
  };
  await assert.rejects(loaded(data).doc.change(fail), error);
});

test('edits of no document are refused, as submit is', OPTIONS, async () => {
  const edits = [(doc) => doc.set(['a'], 1), (doc) => doc.change(() => undefined), (doc) => doc.insert([], 0, 'a')];
  for (const edit of edits) {
    assert.strictEqual(await codeOf(edit(started().doc)), 'ERR_NOT_LOADED');
    assert.strictEqual(await codeOf(edit(absent().doc)), 'ERR_DOC_DOES_NOT_EXIST');
    const { doc } = loaded({});
    doc.destroy();
    assert.strictEqual(await codeOf(edit(doc)), 'ERR_CLOSED');
  }
});

test('listeners receive the source of an edit', OPTIONS, () => {
  const { doc } = loaded({ n: 1, l: [1, 2, 3], t: 'a' });
  const sources = [];
  doc.on('change', ({ source }) => sources.push(source));
  doc.set(['n'], 2, { source: 1 });
  doc.insert(['l'], 0, 0, { source: 2 });
  doc.removeAt(['l', 0], { source: 3 });
  doc.removeRange(['l'], 0, 2, { source: 4 });
  doc.add(['n'], 2, { source: 5 });
  doc.change((draft) => draft.l.pop(), { source: 6 });
  doc.change((draft) => draft.push(1), { source: 7, path: ['l'] });
  assert.deepStrictEqual(sources, [1, 2, 3, 4, 5, 6, 7]);
});

test('a change of more components than a message has is sent in parts', OPTIONS, () => {
  const { doc, socket } = loaded({ keys: {} });
  const keys = Object.fromEntries(Array.from({ length: MOST_COMPONENTS + 1 }, (_, at) => [`k${at}`, at]));
  doc.change((draft) => Object.assign(draft.keys, keys));
  const [first] = socket.taken();
  assert.strictEqual(first.op.length, MOST_COMPONENTS);
  socket.answer({ a: 'op', c: 'b', d: '1', v: 3, src: 'me', seq: first.seq });
  const [rest] = socket.taken();
  assert.deepStrictEqual(apply(apply({ keys: {} }, first.op), rest.op), { keys });
  assert.deepStrictEqual(doc.data, { keys });
});

test('a document that is deeper than a value of an edit can be', OPTIONS, () => {
  const deep = (levels) => (levels === 0 ? { t: 'a' } : [deep(levels - 1)]);
  const { doc } = loaded({ n: 1, o: {}, l: deep(60), k: deep(30) });
  doc.change((draft) => {
    draft.n = 2;
    draft.k[0][0].push('b');
    draft.o = { moved: draft.l[0][0][0][0][0][0][0][0][0][0][0][0] };
  });
  assert.deepStrictEqual([doc.data.n, doc.data.k[0][0][1], doc.data.o], [2, 'b', { moved: deep(48) }]);
});

test('a draft is a copy, of one part only if a path is named', OPTIONS, () => {
  const { doc } = loaded({ a: { b: [1] }, c: 1 }, { freeze: true });
  const before = doc.data;
  let kept;
  doc.change((draft) => (kept = draft).b.push(2), { path: ['a'] });
  assert.deepStrictEqual([before, kept], [{ a: { b: [1] }, c: 1 }, { b: [1, 2] }]);
  assert.deepStrictEqual(doc.data, { a: { b: [1, 2] }, c: 1 });
  kept.b.push(3);
  assert.deepStrictEqual(doc.data.a.b, [1, 2]);
  assert.strictEqual(opOf('abc', (one) => one.change((text) => text.toUpperCase())).length, 2);
});

test('the edits of docs/CLIENT.md', OPTIONS, async () => {
  const text = fs.readFileSync(new URL('../../docs/CLIENT.md', import.meta.url), 'utf8');
  const [, code] = /```js edits\n([^`]*)```/.exec(text);
  const { doc } = loaded({ cards: { x6: {} } });
  new Function('doc', code.replace(/^await /gm, ''))(doc);
  assert.deepStrictEqual(doc.data, { cards: { x7: { title: 'plan B', votes: 1, tags: [] } } });
});

// Several clients ----------------------------------------------------------------------------------------------

function randomCall({ random, pick, data }, mutate, doc) {
  const kind = random(5);
  if (kind < 2) return doc.change((draft) => void mutate(draft));
  if (kind === 2) return doc.set(['root', pick(['k', 'm'])], data(2));
  if (kind === 3) return doc.add(['n'], random(5));
  return doc.change((draft) => void mutate(draft), { path: ['root'] });
}

test('what clients change at the same time converges', OPTIONS, async () => {
  const seed = seedOf('concurrent changes');
  for (let run = 0; run < RUNS * 4; run += 1) {
    const documents = randomDocuments(seed + run);
    const mutate = mutator(documents);
    const net = new Net();
    const docs = ['ada', 'ben', 'cid'].map((name) => net.client(name).doc);
    for (const doc of docs) doc.subscribe();
    net.deliver();
    docs[0].create({ root: { k: documents.data(3), m: documents.data(3) }, n: 0 });
    await net.settle();
    for (let made = 0; made < 30; made += 1) {
      randomCall(documents, mutate, documents.pick(docs)).catch(() => {});
      const link = documents.pick(net.links);
      if (documents.random(2)) net.up(link);
      else net.down(link);
    }
    await net.settle();
    const { log, data } = net.stored;
    for (const doc of docs) assert.deepStrictEqual(doc.data, data[log.length], `SEED=${seed + run} RUNS=1`);
  }
});
