/* Undo and redo: random histories with edits of another client at the model's server, groups, limits and events. */

import assert from 'node:assert';
import { test } from 'node:test';
import { UndoManager } from '../src/index.js';
import { MOST_COMPONENTS, MOST_COMPOSED } from '../src/limits.js';
import { flush } from './support/clock.js';
import { History } from './support/history.js';
import { Net } from './support/net.js';
import { OPTIONS } from './support/options.js';
import { seedOf } from './support/random.js';
import { ADDRESS, acknowledged, insert, loaded, reconnected, stored } from './support/scripted.js';

const CASES = Number(process.env.CASES || 2500);

// Random histories ---------------------------------------------------------------------------------------------

/*
 * Own edits and those of others touch different places:
 *
 * - `mine` and `yours` are changed by one of them only, at any place inside.
 * - Both add to the number `n`.
 * - Both insert into the text `t` and into the list `l`, and each removes and changes only what it has inserted.
 *
 * Then undoing all own edits gives the document of a replica that never made them.
 */
test('all own edits are undone: the document of a replica without them', OPTIONS, () => {
  const seed = seedOf('undone histories');
  for (let run = 0; run < CASES; run += 1) {
    const history = new History(seed + run).startApart();
    const { doc, manager, net } = history;
    for (let made = 4 + history.random(12); made > 0; made -= 1) history.step();
    while (manager.canUndo) {
      manager.undo();
      if (history.random(4) === 0) history.step(['others', 'up', 'down']);
    }
    net.deliver();
    const details = `SEED=${seed + run} CASES=1`;
    assert.deepStrictEqual(doc.data, history.replica, details);
    assert.deepStrictEqual(history.last, history.replica, details);
  }
});

test('what is undone and redone while others edit other places is there again', OPTIONS, () => {
  const seed = seedOf('histories between');
  for (let run = 0; run < CASES / 5; run += 1) {
    const history = new History(seed + run).startApart();
    const { doc, manager } = history;
    for (let made = 4 + history.random(8); made > 0; made -= 1) history.step(['own', 'own', 'others', 'up', 'down']);
    const lettersOf = ({ t }) => t.replace(/Y/g, '');
    const itemsOf = ({ l }) => l.filter(({ by }) => by !== 'other');
    const before = doc.data;
    const times = 1 + history.random(4);
    for (let made = 0; made < times; made += 1) {
      manager.undo();
      history.step(['others', 'up', 'down']);
    }
    for (let made = 0; made < times; made += 1) {
      history.step(['others', 'up', 'down']);
      manager.redo();
    }
    const own = (data) => [data.mine, lettersOf(data), itemsOf(data)];
    assert.deepStrictEqual(own(doc.data), own(before), `SEED=${seed + run}`);
  }
});

// Own edits and those of others are any, at any place.
test('what is undone and redone at once is there again, and all clients converge', OPTIONS, () => {
  const seed = seedOf('redone histories');
  for (let run = 0; run < CASES; run += 1) {
    const history = new History(seed + run).startAnywhere();
    const { doc, manager, net } = history;
    const details = `SEED=${seed + run} CASES=1`;
    for (let made = 4 + history.random(12); made > 0; made -= 1) {
      history.step();
      if (history.random(3) > 0) continue;
      const before = doc.data;
      const times = 1 + history.random(3);
      const undone = Array.from({ length: times }, () => manager.canUndo && Boolean(manager.undo())).filter(Boolean);
      for (const redo of undone) assert.ok(redo && manager.canRedo && manager.redo(), details);
      assert.deepStrictEqual(doc.data, before, details);
    }
    while (manager.canUndo) manager.undo();
    net.deliver();
    assert.deepStrictEqual(doc.data, history.last, details);
    for (const other of history.others) assert.deepStrictEqual(other.data, history.last, details);
  }
});

test('without edits of others undo gives the first document, and redo the last one', OPTIONS, () => {
  const seed = seedOf('own histories');
  for (let run = 0; run < CASES / 5; run += 1) {
    const history = new History(seed + run).startAnywhere();
    const { doc, manager } = history;
    const first = doc.data;
    for (let made = 1 + history.random(9); made > 0; made -= 1) history.step(['own', 'own', 'wait', 'up', 'down']);
    const last = doc.data;
    while (manager.canUndo) manager.undo();
    assert.deepStrictEqual(doc.data, first, `SEED=${seed + run}`);
    while (manager.canRedo) manager.redo();
    assert.deepStrictEqual(doc.data, last, `SEED=${seed + run}`);
  }
});

// Groups -------------------------------------------------------------------------------------------------------

function managed(data, options, settings) {
  const all = loaded(data, settings);
  return { ...all, manager: new UndoManager(all.doc, options) };
}

// Returns the data after each undo, or redo.
function moves(doc, manager, move) {
  const seen = [];
  while (manager[move === 'undo' ? 'canUndo' : 'canRedo']) {
    manager[move]();
    seen.push(doc.data);
  }
  return seen;
}

test('edits are one group until half a second passes', OPTIONS, () => {
  const { clock, doc, manager } = managed('', {});
  for (const [wait, letter] of [[0, 'a'], [499, 'b'], [499, 'c'], [500, 'd'], [0, 'e']]) {
    clock.advance(wait);
    doc.insert([], doc.data.length, letter);
  }
  assert.deepStrictEqual(moves(doc, manager, 'undo'), ['abc', '']);
  assert.deepStrictEqual(moves(doc, manager, 'redo'), ['abc', 'abcde']);
  clock.advance(1);
  doc.insert([], 5, 'f');
  assert.deepStrictEqual(moves(doc, manager, 'undo'), ['abcde', 'abc', '']);
});

test('with groupBy 0 each edit is a group', OPTIONS, () => {
  const { doc, manager } = managed(0, { groupBy: 0 });
  for (const amount of [1, 2, 3]) doc.add([], amount);
  assert.deepStrictEqual(moves(doc, manager, 'undo'), [3, 1, 0]);
});

test('an edit after undo or redo is a group of its own, and what was undone can\'t be redone', OPTIONS, () => {
  const { doc, manager } = managed(0, {});
  doc.add([], 1);
  manager.undo();
  manager.redo();
  doc.add([], 2);
  doc.add([], 4);
  manager.undo();
  assert.deepStrictEqual([doc.data, manager.canUndo, manager.canRedo], [1, true, true]);
  doc.add([], 8);
  assert.deepStrictEqual([doc.data, manager.canUndo, manager.canRedo], [9, true, false]);
  assert.deepStrictEqual(moves(doc, manager, 'undo'), [1, 0]);
});

test('the oldest groups are dropped beyond the limit', OPTIONS, () => {
  const { doc, manager } = managed(0, { groupBy: 0, limit: 3 });
  for (let at = 0; at < 10; at += 1) doc.add([], 2 ** at);
  assert.deepStrictEqual(moves(doc, manager, 'undo'), [511, 255, 127]);
  assert.deepStrictEqual(moves(doc, manager, 'redo'), [255, 511, 1023]);
  const hundred = managed(0, { groupBy: 0 });
  for (let at = 0; at < 150; at += 1) hundred.doc.add([], 1);
  assert.strictEqual(moves(hundred.doc, hundred.manager, 'undo').length, 100);
});

test('a group is bounded, though its edits follow each other at once', OPTIONS, () => {
  const { doc, manager } = managed({}, { limit: 2 });
  for (let at = 0; at < 3 * MOST_COMPOSED; at += 1) doc.set([`k${at}`], at);
  assert.deepStrictEqual(moves(doc, manager, 'undo').map((data) => Object.keys(data).length), [128, 64]);
  const text = managed('', {});
  for (let at = 0; at < 3; at += 1) text.doc.insert([], 0, 'x'.repeat(30000));
  assert.deepStrictEqual(moves(text.doc, text.manager, 'undo').map(({ length }) => length), [60000, 0]);
});

test('edits of others add nothing to the stacks', OPTIONS, () => {
  const { doc, manager, socket } = managed({ t: '', n: 0 }, { groupBy: 0 });
  for (let at = 0; at < 20; at += 1) doc.insert(['t'], 0, 'x');
  for (let at = 0; at < 10; at += 1) manager.undo();
  const size = () => JSON.stringify(manager._undo().undos.concat(manager._undo().redos)).length;
  const before = size();
  for (let at = 0; at < 2000; at += 1) socket.answer(stored(3 + at, [{ p: ['t', 0], si: 'y' }, { p: ['n'], na: 1 }]));
  assert.ok(size() < before + 20 * 5, 'the offsets have more digits');
  moves(doc, manager, 'redo');
  assert.strictEqual(doc.data.t.replace(/y/g, ''), 'x'.repeat(20));
});

// Others -------------------------------------------------------------------------------------------------------

test('what others removed with an own edit in it isn\'t undone', OPTIONS, () => {
  const { doc, manager, socket } = managed({ o: { t: '' }, n: 0 }, { groupBy: 0 });
  doc.add(['n'], 1);
  doc.insert(['o', 't'], 0, 'x');
  doc.set(['o', 'k'], 1);
  socket.answer(stored(3, [{ p: ['o'], od: { t: '' } }]));
  assert.deepStrictEqual(doc.data, { n: 1 });
  assert.deepStrictEqual(moves(doc, manager, 'undo'), [{ n: 0 }]);
});

test('a text that others insert into an own one stays', OPTIONS, () => {
  const { doc, manager, socket } = managed('', {});
  doc.insert([], 0, 'abcd');
  const [{ seq }] = socket.taken();
  socket.answer({ a: 'op', ...ADDRESS, seq, src: 'me', v: 3 }, stored(4, insert(2, '-')));
  assert.strictEqual(doc.data, 'ab-cd');
  manager.undo();
  assert.strictEqual(doc.data, '-');
  manager.redo();
  assert.strictEqual(doc.data, 'ab-cd');
});

test('a value that others have replaced since', OPTIONS, () => {
  const { doc, manager, socket } = managed({ k: 1 }, { groupBy: 0 });
  doc.set(['k'], 2);
  doc.set(['new'], 2);
  socket.answer(acknowledged(3, 1), acknowledged(4, 2));
  socket.answer(stored(5, [{ p: ['k'], od: 2, oi: 3 }, { p: ['new'], od: 2, oi: 3 }]));
  assert.deepStrictEqual(moves(doc, manager, 'undo'), [{ k: 1, new: 3 }]);
});

test('an own item and value that were removed are inserted again with what others did before', OPTIONS, () => {
  const { doc, manager, socket } = managed({ l: [{ n: 0 }, 'z'], k: { a: 'b' } }, { groupBy: 0 });
  socket.answer(stored(3, [{ p: ['l', 0, 'n'], na: 5 }, { p: ['k', 'a', 1], si: '!' }]));
  doc.removeAt(['l', 0]);
  doc.set(['k'], null);
  assert.deepStrictEqual(moves(doc, manager, 'undo'), [
    { l: ['z'], k: { a: 'b!' } }, { l: [{ n: 5 }, 'z'], k: { a: 'b!' } },
  ]);
});

test('a document that is replaced as a whole: nothing can be undone', OPTIONS, async () => {
  for (const end of ['refused', 'restarted', 'deleted']) {
    const all = managed({ n: 0 }, { groupBy: 0 });
    const { doc, manager, socket } = all;
    const seen = [];
    manager.on('change', (detail) => seen.push(detail));
    doc.add(['n'], 1).catch(() => {});
    doc.add(['n'], 2).catch(() => {});
    manager.undo().catch(() => {});
    assert.deepStrictEqual([manager.canUndo, manager.canRedo], [true, true]);
    if (end === 'refused') socket.answer({ a: 'op', ...ADDRESS, seq: 1, src: 'me', error: { code: 'ERR_LIMIT' } });
    if (end === 'deleted') socket.answer({ a: 'op', ...ADDRESS, del: true, src: 'other', seq: 1, v: 3 });
    if (end === 'restarted') reconnected(all).answer({ a: 'nf', id: 1, v: 3, type: null });
    assert.deepStrictEqual([manager.canUndo, manager.canRedo], [false, false], end);
    assert.deepStrictEqual(seen.pop(), { canUndo: false, canRedo: false });
    assert.deepStrictEqual(await manager.undo(), { version: null });
    assert.deepStrictEqual(await manager.redo(), { version: null });
  }
});

test('an inverse that is refused: the promise fails, and the stack is empty', OPTIONS, async () => {
  const largest = Number.MAX_SAFE_INTEGER;
  const { doc, manager, socket } = managed({ n: 0, m: 0 }, { groupBy: 0 });
  doc.add(['m'], 1);
  socket.answer(acknowledged(3, 1));
  doc.add(['n'], -5);
  socket.answer(acknowledged(4, 2), stored(5, [{ p: ['n'], na: largest }]), stored(6, [{ p: ['n'], na: 5 }]));
  await assert.rejects(manager.undo(), { code: 'ERR_OT_OP_NOT_APPLIED' });
  assert.deepStrictEqual([manager.canUndo, manager.canRedo, doc.data], [false, false, { n: largest, m: 1 }]);
  doc.add(['m'], 1);
  manager.undo();
  assert.strictEqual(doc.data.m, 1);
  doc.destroy();
  await assert.rejects(manager.redo(), { code: 'ERR_CLOSED' });
});

test('a group that can\'t be transformed is dropped with those before it', OPTIONS, () => {
  const { doc, manager, socket } = managed({ t: 'ab', n: 0 }, { groupBy: 0 });
  for (const amount of [1, 2, 4]) doc.add(['n'], amount);
  // (as if the text had a surrogate pair, into which no client can insert)
  manager._undo().undos[1].operation = [{ p: ['t', 0], sd: '😀' }];
  socket.answer(stored(3, [{ p: ['t', 1], si: 'x' }]));
  assert.deepStrictEqual(moves(doc, manager, 'undo'), [{ t: 'axb', n: 3 }]);
});

// Calls --------------------------------------------------------------------------------------------------------

test('the source of undo and redo is the manager, and another manager takes them as edits', OPTIONS, () => {
  const { doc, manager } = managed(0, { groupBy: 0 });
  const other = new UndoManager(doc, { groupBy: 0 });
  const sources = [];
  doc.on('op', ({ source, local }) => sources.push([source, local]));
  doc.add([], 1, { source: 'field' });
  manager.undo();
  manager.redo();
  assert.deepStrictEqual(sources, [['field', true], [manager, true], [manager, true]]);
  assert.deepStrictEqual(moves(doc, other, 'undo'), [0, 1, 0]);
});

test('change is emitted once the numbers of groups have changed, after the document\'s', OPTIONS, () => {
  const { doc, manager } = managed(0, {});
  const seen = [];
  manager.on('change', ({ canUndo, canRedo }) => seen.push([canUndo, canRedo, doc.data]));
  doc.add([], 1);
  doc.add([], 1);
  manager.undo();
  manager.redo();
  manager.clear();
  manager.clear();
  doc.add([], 1);
  assert.deepStrictEqual(seen, [
    [true, false, 1], [false, true, 0], [true, false, 2], [false, false, 2], [true, false, 3],
  ]);
});

test('undo in a listener, before the manager\'s own listener is called', OPTIONS, () => {
  const { doc, socket } = loaded('', {});
  const removers = [];
  let manager = null;
  removers.push(doc.on('op', ({ local }) => !local && manager.undo()));
  manager = new UndoManager(doc, { groupBy: 0 });
  doc.insert([], 0, 'x');
  socket.answer(stored(3, insert(0, 'abc')));
  assert.strictEqual(doc.data, 'abc');
  manager.redo();
  assert.strictEqual(doc.data, 'xabc');
});

test('a listener that edits at undo: its edit is a group of its own', OPTIONS, () => {
  const { doc, manager } = managed({ n: 0, undone: 0 }, { groupBy: 0 });
  doc.on('change', ({ source }) => source === manager && doc.add(['undone'], 1));
  doc.add(['n'], 1);
  manager.undo();
  assert.deepStrictEqual([doc.data, manager.canUndo, manager.canRedo], [{ n: 0, undone: 1 }, true, false]);
  doc.off('change');
  manager.undo();
  assert.deepStrictEqual([doc.data, manager.canUndo, manager.canRedo], [{ n: 0, undone: 0 }, false, true]);
});

test('stop forgets everything and keeps nothing', OPTIONS, async () => {
  const { doc, manager } = managed(0, { groupBy: 0 });
  doc.add([], 1);
  doc.add([], 1);
  manager.undo();
  manager.stop();
  doc.add([], 1);
  assert.deepStrictEqual([manager.canUndo, manager.canRedo, doc._doc().observers.size], [false, false, 0]);
  assert.deepStrictEqual(await manager.undo(), { version: null });
  manager.stop();
  assert.strictEqual(doc.data, 2);
});

test('an inverse of more components than a message has is sent in parts', OPTIONS, async () => {
  const keys = Object.fromEntries(Array.from({ length: MOST_COMPONENTS + 1 }, (_, at) => [`k${at}`, at]));
  const { doc, manager } = managed(keys, {});
  doc.change((draft) => Object.keys(keys).forEach((key) => delete draft[key]));
  assert.deepStrictEqual(doc.data, {});
  manager.undo();
  assert.deepStrictEqual(doc.data, keys);
});

test('undo over a lost connection: nothing is undone twice', OPTIONS, async () => {
  const net = new Net();
  const [ada, ben] = ['ada', 'ben'].map((name) => net.client(name, { batch: true }).doc);
  for (const doc of [ada, ben]) doc.subscribe();
  net.deliver();
  ada.create({ t: '' });
  await net.settle();
  const manager = new UndoManager(ada);
  ada.insert(['t'], 0, 'x');
  await flush();
  net.cut(net.links[0], true);
  manager.undo();
  ben.insert(['t'], 0, 'y');
  await net.settle();
  net.deliverLate();
  await net.settle();
  assert.deepStrictEqual([ada.data, ben.data, net.stored.data[net.stored.log.length]], Array(3).fill({ t: 'y' }));
  manager.redo();
  await net.settle();
  assert.deepStrictEqual([...ben.data.t].sort(), ['x', 'y']);
});

function deep(levels) {
  return levels === 0 ? 1 : [deep(levels - 1)];
}

test('an own value that others have made deeper than a message can have is removed', OPTIONS, () => {
  const { doc, manager, socket } = managed({}, {});
  doc.set(['k'], deep(40));
  assert.deepStrictEqual(manager._undo().undos[0].operation, [{ p: ['k'], od: null }]);
  socket.answer(acknowledged(3, 1), stored(4, [{ p: ['k', ...Array(40).fill(0)], li: deep(30) }]));
  manager.undo();
  assert.deepStrictEqual(doc.data, {});
});

test('a removed value of any size is kept for undo', OPTIONS, () => {
  const long = 'x'.repeat(600000);
  const { doc, manager } = managed({ a: long, b: long, c: deep(50) }, { groupBy: 0 });
  doc.change((draft) => {
    delete draft.a;
    delete draft.b;
    delete draft.c;
  });
  assert.deepStrictEqual(doc.data, {});
  const inverse = manager._undo().undos[0].operation;
  assert.deepStrictEqual(inverse.map(({ p, oi }) => [p[0], typeof oi]), [['c', 'object'], ['b', 'string'], ['a', 'string']]);
});
