/* A bound text field, with a stand-in for the field: carets, compositions, keys, paths that move, and refusals. */

import assert from 'node:assert';
import { test } from 'node:test';
import { UndoManager, bindText, transformPosition } from '../src/index.js';
import { componentsFor, endOf, transformPath } from '../src/ot/text.js';
import { flush } from './support/clock.js';
import { composeRandomly, composeWhileDeleted, composeWhileEdited, started } from './support/compositions.js';
import { randomDocuments } from './support/documents.js';
import { Field } from './support/field.js';
import { Net } from './support/net.js';
import { OPTIONS } from './support/options.js';
import { choices, seedOf } from './support/random.js';
import { ADDRESS, absent, loaded, stored } from './support/scripted.js';

const CASES = Number(process.env.CASES || 2000);

// Returns a field that is bound to a text of the data.
function bound(data, path, options) {
  const all = loaded(data);
  const field = new Field();
  const errors = [];
  const binding = bindText(field, all.doc, path, { refused: ({ code }) => errors.push(code), ...options });
  field.changes = 0;
  return { ...all, binding, errors, field };
}

function caretOf({ value, selectionStart, selectionEnd }) {
  return `${value.slice(0, selectionStart)}[${value.slice(selectionStart, selectionEnd)}]${value.slice(selectionEnd)}`;
}

function bindTitle(doc, field) {
  return bindText(field, doc, ['title']);
}

// Typing -------------------------------------------------------------------------------------------------------

test('a field shows the text and sends what is typed', OPTIONS, () => {
  const { doc, field, socket } = bound({ t: 'abc' }, ['t']);
  assert.strictEqual(field.value, 'abc');
  const sources = [];
  doc.on('change', ({ source, operation }) => sources.push([typeof source, operation]));
  field.type(1, 2, 'xy');
  assert.deepStrictEqual([doc.data, field.changes], [{ t: 'axyc' }, 0]);
  const [{ op }] = socket.taken();
  assert.deepStrictEqual(op, [{ p: ['t', 1], sd: 'b' }, { p: ['t', 1], si: 'xy' }]);
  assert.deepStrictEqual(sources, [['object', op]]);
});

test('what is typed at the caret between equal letters is inserted there', OPTIONS, () => {
  const { field, socket } = bound({ t: 'aaaa' }, ['t']);
  field.type(2, 2, 'a');
  assert.deepStrictEqual(socket.taken()[0].op, [{ p: ['t', 2], si: 'a' }]);
});

test('the selection stays between its letters, and the field at its scroll offset', OPTIONS, () => {
  const { doc, field, socket } = bound({ t: 'one two three' }, ['t']);
  field.setSelectionRange(4, 7, 'backward');
  field.scrollTop = 30;
  socket.answer(stored(3, [{ p: ['t', 0], si: 'zero ' }, { p: ['t', 18], si: '!' }]));
  assert.strictEqual(caretOf(field), 'zero one [two] three!');
  assert.deepStrictEqual([field.selectionDirection, field.scrollTop, field.changes], ['backward', 30, 1]);
  doc.submit([{ p: ['t', 5], sd: 'one ' }]);
  assert.strictEqual(caretOf(field), 'zero [two] three!');
  socket.answer(stored(4, [{ p: ['t'], od: '', oi: 'new' }]));
  assert.strictEqual(field.value, doc.data.t);
});

test('an edit of another place doesn\'t touch the field', OPTIONS, () => {
  const { field, socket } = bound({ t: 'abc', u: '', l: [] }, ['t']);
  socket.answer(stored(3, [{ p: ['u', 0], si: 'x' }, { p: ['l', 0], li: 1 }, { p: ['n'], oi: 1 }]));
  assert.deepStrictEqual([field.value, field.changes], ['abc', 0]);
});

test('a field without selections, as of an email address', OPTIONS, () => {
  const all = loaded({ t: 'a@b' });
  const field = new Field();
  let ranges = 0;
  Object.assign(field, { selectionStart: null, selectionEnd: null, setSelectionRange: () => (ranges += 1) });
  bindText(field, all.doc, ['t']);
  field.text = 'aa@b';
  field.emit('input');
  assert.deepStrictEqual(all.doc.data, { t: 'aa@b' });
  all.socket.answer(stored(3, [{ p: ['t', 0], si: 'x' }]));
  assert.deepStrictEqual([field.value, ranges], ['axa@b', 2], 'the stand-in itself sets the caret, and the binding not');
});

test('two fields of one text', OPTIONS, () => {
  const { doc, field } = bound({ t: 'abc' }, ['t']);
  const other = new Field();
  bindText(other, doc, ['t']);
  other.setSelectionRange(3, 3);
  field.type(0, 0, 'x');
  assert.deepStrictEqual([field.value, caretOf(other), field.changes], ['xabc', 'xabc[]', 0]);
});

test('a text that a listener changes while an edit of others is received', OPTIONS, () => {
  const all = loaded({ t: 'abc' });
  const field = new Field();
  all.doc.on('op', ({ local }) => !local && field.type(0, 0, 'x'));
  bindText(field, all.doc, ['t']);
  all.socket.answer(stored(3, [{ p: ['t', 3], si: '!' }]));
  assert.deepStrictEqual([field.value, all.doc.data], ['xabc!', { t: 'xabc!' }]);
});

// Compositions -------------------------------------------------------------------------------------------------

test('a composition that another client\'s edits meet', OPTIONS, () => composeWhileEdited(bindTitle));

test('a document that is deleted and created during a composition', OPTIONS, () => composeWhileDeleted(bindTitle));

test('random compositions: no letter is lost or doubled', OPTIONS, () => composeRandomly(bindTitle));

test('a composition in an item of a list while items are inserted, removed and edited', OPTIONS, () => {
  const { doc, field, socket } = bound([{ t: 'a' }, { t: 'bc' }, { t: 'd' }], [1, 't']);
  field.emit('compositionstart');
  field.type(1, 1, '東');
  socket.answer(stored(3, [{ p: [0], li: { t: 'new' } }, { p: [2, 't', 2], si: '!' }, { p: [3, 't', 0], si: 'x' }]));
  socket.answer(stored(4, [{ p: [1], ld: { t: 'a' } }, { p: [1, 't', 0], si: '-' }, { p: [0, 't', 0], si: 'y' }]));
  assert.deepStrictEqual([field.value, field.changes, doc.data[1].t], ['b東c', 0, '-bc!']);
  field.type(2, 2, '京');
  field.emit('compositionend');
  assert.deepStrictEqual(doc.data, [{ t: 'ynew' }, { t: '-b東京c!' }, { t: 'xd' }]);
  assert.strictEqual(caretOf(field), '-b東京[]c!');
});

test('a text whose line breaks the field doesn\'t have', OPTIONS, () => {
  class TextArea extends Field {
    get value() {
      return super.value;
    }

    set value(text) {
      super.value = text.replace(/\r\n/g, '\n');
    }
  }
  for (const isComposed of [false, true]) {
    const all = loaded({ t: 'one\r\ntwo' });
    const field = new TextArea();
    bindText(field, all.doc, ['t']);
    if (isComposed) field.emit('compositionstart');
    field.type(7, 7, '!');
    if (isComposed) field.emit('compositionend');
    assert.deepStrictEqual([field.value, all.doc.data], ['one\ntwo!', { t: 'one\ntwo!' }]);
  }
});

test('a text that is removed during a composition', OPTIONS, () => {
  for (const removal of [[{ p: ['o'], od: {} }], [{ p: ['o', 't'], od: '' }], [{ p: ['o', 't'], od: '', oi: 5 }]]) {
    const { doc, errors, field, socket } = bound({ o: { t: 'a' } }, ['o', 't']);
    field.emit('compositionstart');
    field.type(1, 1, 'x');
    socket.answer(stored(3, removal));
    field.emit('compositionend');
    assert.deepStrictEqual([errors, socket.taken(), field.value], [[], [], 'ax']);
    socket.answer(stored(4, [{ p: ['o'], od: {}, oi: { t: 'new' } }]));
    assert.deepStrictEqual([field.value, doc.data], ['new', { o: { t: 'new' } }]);
  }
});

// Paths --------------------------------------------------------------------------------------------------------

test('a path moves with the items of lists, and ends with its item', OPTIONS, () => {
  const { doc, field, socket } = bound({ l: [{ t: 'a' }, { t: 'b' }] }, ['l', 1, 't']);
  socket.answer(stored(3, [{ p: ['l', 0], li: { t: 'new' } }]));
  field.type(1, 1, '1');
  assert.deepStrictEqual(doc.data.l.map(({ t }) => t), ['new', 'a', 'b1']);
  doc.removeRange(['l'], 0, 2);
  field.type(2, 2, '2');
  assert.deepStrictEqual(doc.data.l, [{ t: 'b12' }]);
  doc.set(['l', 0], { t: 'other' });
  assert.strictEqual(field.value, 'other');
  doc.insert(['l'], 1, { t: 'next' });
  doc.removeAt(['l', 0]);
  field.type(0, 0, 'x');
  doc.insert(['l'], 0, { t: 'again' });
  assert.deepStrictEqual([field.value, doc.data.l.map(({ t }) => t)], ['xother', ['again', 'next']]);
});

// Makes a random step: of the field's user, of the same client by calls, of the other one, or of the network.
function stepOfItems({ random, pick }, { ada, ben, field, net, mine }) {
  const doc = pick([ada, ben]);
  const { l } = doc.data;
  const others = l.map((_, at) => at).filter((at) => l[at].id !== mine);
  const kind = random(8);
  const at = random(field.value.length + 1);
  if (kind < 2) field.type(at, at, pick(['x', 'yz']));
  else if (kind === 2) field.type(Math.max(0, at - 2), at, '');
  else if (kind === 3) field.press(pick(['z', 'y']), 'ctrlKey');
  else if (kind === 4) doc.insert(['l'], random(l.length + 1), { id: `new${random(1e6)}`, t: 'new' });
  else if (kind === 5 && others.length > 0) doc.removeAt(['l', pick(others)]);
  else if (kind === 6) doc.insert(['l', random(l.length), 't'], 0, '-');
  else net.deliver();
}

test('random edits of a list: the field shows the text of its item', OPTIONS, () => {
  const seed = seedOf('bound items');
  for (let run = 0; run < CASES / 10; run += 1) {
    const chosen = choices(seed + run);
    const net = new Net();
    const [ada, ben] = ['ada', 'ben'].map((name) => net.client(name).doc);
    for (const doc of [ada, ben]) doc.subscribe();
    net.deliver();
    ada.create({ l: ['a', 'b', 'c'].map((id) => ({ id, t: id })) });
    net.deliver();
    const field = new Field();
    bindText(field, ada, ['l', 1, 't'], { undo: new UndoManager(ada, { groupBy: 0 }) });
    const played = { ada, ben, field, net, mine: 'b' };
    for (let made = 0; made < 40; made += 1) {
      const isComposing = chosen.random(4) === 0;
      if (isComposing) field.emit('compositionstart');
      const { changes } = field;
      for (let more = chosen.random(4); more >= 0; more -= 1) stepOfItems(chosen, played);
      if (isComposing) assert.strictEqual(field.changes, changes);
      if (isComposing) field.emit('compositionend');
      assert.strictEqual(field.value, ada.data.l.find(({ id }) => id === 'b').t, `SEED=${seed + run}`);
    }
    net.deliver();
    assert.deepStrictEqual(ada.data, ben.data, `SEED=${seed + run}`);
  }
});

test('a path of keys stays, and the field shows the text that is there', OPTIONS, () => {
  const { doc, errors, field, socket } = bound({ o: { t: 'a' } }, ['o', 't']);
  socket.answer(stored(3, [{ p: ['o'], od: { t: 'a' } }]));
  field.type(1, 1, 'x');
  assert.deepStrictEqual([field.value, doc.data, socket.taken(), errors], ['ax', {}, [], []]);
  socket.answer(stored(4, [{ p: ['o'], oi: { t: 'back' } }]));
  assert.strictEqual(field.value, 'back');
  doc.set(['o', 't'], 5);
  assert.strictEqual(field.value, 'back');
  doc.set(['o', 't'], 'text');
  assert.strictEqual(field.value, 'text');
});

test('a document that is created after the field is bound', OPTIONS, async () => {
  const { doc } = absent();
  const field = new Field();
  field.text = 'before';
  bindText(field, doc, ['t']);
  field.emit('input');
  assert.deepStrictEqual([field.value, doc.data], ['before', undefined]);
  doc.create({ t: 'abc' });
  assert.strictEqual(field.value, 'abc');
});

test('the caller may change the path that it has passed', OPTIONS, () => {
  const path = ['t'];
  const { field, doc } = bound({ t: 'a', u: 'b' }, path);
  path[0] = 'u';
  field.type(1, 1, 'x');
  assert.deepStrictEqual(doc.data, { t: 'ax', u: 'b' });
});

// Refusals -----------------------------------------------------------------------------------------------------

test('an edit that is refused at once: the field shows the document\'s text', OPTIONS, () => {
  const { doc, errors, field } = bound({ t: 'abc' }, ['t']);
  field.type(0, 0, 'x'.repeat(1200000));
  assert.deepStrictEqual([errors, field.value, doc.data], [['ERR_MESSAGE_BADLY_FORMED'], 'abc', { t: 'abc' }]);
  field.type(0, 0, '\ud800');
  assert.deepStrictEqual([errors[1], field.value], ['ERR_OT_OP_BADLY_FORMED', 'abc']);
  field.type(3, 3, 'd');
  assert.deepStrictEqual(doc.data, { t: 'abcd' });
});

test('an edit that the server refuses: the field shows the document\'s text', OPTIONS, async () => {
  const { errors, field, socket } = bound({ t: 'abc' }, ['t']);
  field.type(0, 0, 'x');
  socket.answer({ a: 'op', ...ADDRESS, seq: 1, src: 'me', error: { code: 'ERR_LIMIT' } });
  await flush();
  assert.deepStrictEqual([errors, field.value], [['ERR_LIMIT'], 'abc']);
});

test('a refusal is reported, if no option takes it', OPTIONS, () => {
  const all = loaded({ t: 'abc' });
  const field = new Field();
  const reported = [];
  bindText(field, all.doc, ['t']);
  const { reportError } = globalThis;
  globalThis.reportError = (error) => reported.push(error.code);
  field.type(0, 0, '\ud800');
  globalThis.reportError = reportError;
  assert.deepStrictEqual(reported, ['ERR_OT_OP_BADLY_FORMED']);
});

test('a refusal during a composition leaves the field as it is', OPTIONS, async () => {
  const { errors, field, socket } = bound({ t: 'abc' }, ['t']);
  field.type(0, 0, 'x');
  field.emit('compositionstart');
  field.type(1, 1, 'y');
  socket.answer({ a: 'op', ...ADDRESS, seq: 1, src: 'me', error: { code: 'ERR_LIMIT' } });
  await flush();
  assert.deepStrictEqual([errors, field.value, field.changes], [['ERR_LIMIT'], 'xyabc', 0]);
  field.emit('compositionend');
  assert.strictEqual(field.value, 'yabc');
});

// Keys ---------------------------------------------------------------------------------------------------------

function withUndo(data) {
  const all = loaded(data);
  const undo = new UndoManager(all.doc, { groupBy: 0 });
  const field = new Field();
  const errors = [];
  const binding = bindText(field, all.doc, ['t'], { undo, refused: ({ code }) => errors.push(code) });
  return { ...all, binding, errors, field, undo };
}

test('keys undo and redo, and the caret is after what was undone', OPTIONS, () => {
  const { doc, field } = withUndo({ t: 'one ' });
  field.type(4, 4, 'two');
  field.type(0, 4, '');
  assert.deepStrictEqual([field.press('z', 'ctrlKey'), caretOf(field)], [true, 'one []two']);
  assert.deepStrictEqual([field.press('z', 'metaKey'), caretOf(field)], [true, 'one []']);
  assert.deepStrictEqual([field.press('Z', 'ctrlKey', 'shiftKey'), caretOf(field)], [true, 'one two[]']);
  assert.deepStrictEqual([field.press('y', 'ctrlKey'), caretOf(field)], [true, '[]two']);
  assert.deepStrictEqual([field.press('z', 'ctrlKey'), field.press('Z', 'metaKey', 'shiftKey')], [true, true]);
  assert.strictEqual(doc.data.t, 'two');
});

test('undo of another place leaves the caret', OPTIONS, () => {
  const { doc, field } = withUndo({ t: 'abc', o: {} });
  field.type(1, 1, '--');
  doc.change((draft) => {
    draft.t = '!a--bc';
    draft.o.k = 1;
  });
  field.setSelectionRange(5, 6);
  field.press('z', 'ctrlKey');
  assert.strictEqual(caretOf(field), '[]a--bc');
  doc.set(['o', 'k'], 1);
  field.setSelectionRange(4, 5);
  field.press('z', 'ctrlKey');
  assert.strictEqual(caretOf(field), 'a--b[c]');
});

test('other keys are the browser\'s', OPTIONS, () => {
  const { field, doc } = withUndo({ t: 'a' });
  field.type(1, 1, 'b');
  const keys = [['z'], ['z', 'altKey', 'ctrlKey'], ['y', 'metaKey'], ['y', 'ctrlKey', 'shiftKey'], ['x', 'ctrlKey']];
  for (const [key, ...modifiers] of keys) assert.ok(!field.press(key, ...modifiers), `${key} ${modifiers}`);
  assert.strictEqual(doc.data.t, 'ab');
  const plain = bound({ t: 'a' }, ['t']);
  assert.strictEqual(plain.field.press('z', 'ctrlKey'), false);
});

test('the browser\'s own undo is replaced', OPTIONS, () => {
  const { field, doc } = withUndo({ t: 'a' });
  field.type(1, 1, 'b');
  assert.strictEqual(field.emit('beforeinput', { inputType: 'historyUndo' }), true);
  assert.strictEqual(doc.data.t, 'a');
  assert.strictEqual(field.emit('beforeinput', { inputType: 'historyRedo' }), true);
  assert.strictEqual(doc.data.t, 'ab');
  assert.strictEqual(field.emit('beforeinput', { inputType: 'insertText' }), false);
});

test('nothing is undone during a composition', OPTIONS, () => {
  const { field, doc } = withUndo({ t: 'a' });
  field.type(1, 1, 'b');
  field.emit('compositionstart');
  assert.strictEqual(field.press('z', 'ctrlKey'), true);
  assert.strictEqual(doc.data.t, 'ab');
});

test('an undo that is refused is passed on', OPTIONS, async () => {
  const { errors, field, doc } = withUndo({ t: 'a' });
  field.type(1, 1, 'b');
  doc.destroy();
  field.press('z', 'ctrlKey');
  await flush();
  assert.deepStrictEqual(errors, ['ERR_CLOSED']);
});

// The end ------------------------------------------------------------------------------------------------------

test('unbind removes all listeners, and leaves the field', OPTIONS, async () => {
  const { binding, doc, errors, field, socket } = bound({ t: 'abc' }, ['t']);
  field.type(0, 0, 'x');
  binding.unbind();
  binding.unbind();
  assert.deepStrictEqual([field.listening, doc._doc().observers.size], [0, 0]);
  socket.answer({ a: 'op', ...ADDRESS, seq: 1, src: 'me', error: { code: 'ERR_LIMIT' } });
  await flush();
  field.type(0, 0, 'y');
  assert.deepStrictEqual([field.value, errors, doc.data], ['yxabc', ['ERR_LIMIT'], { t: 'abc' }]);
});

test('unbind during a composition sends what was composed', OPTIONS, () => {
  const { binding, doc, field, socket } = bound({ t: 'abc' }, ['t']);
  field.emit('compositionstart');
  field.type(1, 1, 'あ');
  socket.answer(stored(3, [{ p: ['t', 0], si: '-' }]));
  binding.unbind();
  assert.deepStrictEqual(doc.data, { t: '-aあbc' });
});

// Paths and positions of operations ----------------------------------------------------------------------------

test('a path after an operation', OPTIONS, () => {
  const cases = [
    [[{ p: ['l', 1], li: 0 }], ['l', 2, 't']],
    [[{ p: ['l', 2], li: 0 }, { p: ['m', 0], li: 0 }], ['l', 1, 't']],
    [[{ p: ['l', 0], ld: 0 }], ['l', 0, 't']],
    [[{ p: ['l', 2], ld: 0 }], ['l', 1, 't']],
    [[{ p: ['l', 1], ld: 0 }], null],
    [[{ p: ['l', 1], ld: 0, li: 1 }, { p: ['l'], od: 0, oi: 1 }, { p: ['l'], od: 0 }], ['l', 1, 't']],
    [[{ p: ['l', 1, 't'], od: '' }, { p: ['l', 1, 't', 0], si: 'x' }], ['l', 1, 't']],
  ];
  for (const [operation, path] of cases) assert.deepStrictEqual(transformPath(['l', 1, 't'], operation), path);
});

test('the components that concern a text', OPTIONS, () => {
  const concerning = [
    { p: ['l', 0], li: 0 }, { p: ['l', 2, 't', 0], si: 'x' }, { p: ['l', 2, 't'], od: '', oi: 'y' }, { p: ['l'], od: [] },
  ];
  const others = [
    { p: ['m', 0], li: 0 }, { p: ['l', 1, 't', 0], si: 'x' }, { p: ['l', 2, 'u', 0], si: 'x' },
    { p: ['l', 2, 't', 0, 'k'], oi: 1 },
  ];
  const mixed = concerning.flatMap((one, at) => [one, others[at]]);
  assert.deepStrictEqual(componentsFor(['l', 1, 't'], mixed), concerning);
  assert.deepStrictEqual(componentsFor(['l', 1, 't'], [{ p: ['l', 1], ld: 0 }, { p: ['l', 1, 't', 0], si: 'x' }]), [
    { p: ['l', 1], ld: 0 },
  ]);
});

test('the end of a change', OPTIONS, () => {
  assert.strictEqual(endOf([{ p: ['t', 3], sd: 'ab' }, { p: ['t', 3], si: 'xyz' }, { p: ['u', 9], si: 'z' }], ['t']), 6);
  assert.strictEqual(endOf([{ p: ['t', 3], sd: 'ab' }], ['t']), 3);
  assert.strictEqual(endOf([{ p: ['t'], od: 'ab', oi: '' }, { p: ['t', 'k', 0], si: 'x' }], ['t']), null);
});

test('a position stays before or moves after what is inserted at it', OPTIONS, () => {
  const operation = [{ p: ['t', 2], si: 'xy' }];
  const sides = (position) => ['left', 'right'].map((side) => transformPosition(position, operation, ['t'], side));
  assert.deepStrictEqual([1, 2, 3].map(sides), [[1, 1], [2, 4], [5, 5]]);
  assert.strictEqual(transformPosition(3, [{ p: ['t', 1], sd: 'bcd' }], ['t'], 'right'), 1);
  assert.strictEqual(transformPosition(3, [{ p: ['t'], od: 'abc', oi: '' }], ['t'], 'right'), 0);
  assert.strictEqual(transformPosition(3, [{ p: ['u', 0], si: 'x' }], ['t'], 'right'), 3);
  assert.strictEqual(transformPosition(1, [{ p: [0], li: 'x' }, { p: [2, 0], si: 'ab' }], [1], 'left'), 3);
});

test('a position stays with its letter, whatever is edited', OPTIONS, () => {
  const seed = seedOf('positions');
  const { random, pick } = randomDocuments(seed);
  for (let made = 0; made < CASES; made += 1) {
    const letters = 'abcdefgh'.slice(0, random(9));
    const position = random(letters.length + 1);
    const at = random(letters.length + 1);
    const count = random(letters.length - at + 1);
    const edit = pick([[{ p: ['t', at], si: 'XY' }], [{ p: ['t', at], sd: letters.slice(at, at + count) }]]);
    const [{ si = '', sd = '' }] = edit;
    const after = letters.slice(0, at) + si + letters.slice(at + sd.length);
    for (const side of ['left', 'right']) {
      const moved = transformPosition(position, edit, ['t'], side);
      const kept = [...after.slice(0, moved)].filter((it) => letters.slice(0, position).includes(it)).join('');
      const wanted = [...letters.slice(0, position)].filter((it) => after.includes(it)).join('');
      assert.strictEqual(kept, wanted, JSON.stringify({ seed, letters, position, edit, side }));
    }
  }
});

test('carets of two clients that type at once', OPTIONS, () => {
  const { net, ada, ben, field } = started(bindTitle, 'one two');
  const other = new Field();
  bindTitle(ben, other);
  field.setSelectionRange(3, 3);
  other.setSelectionRange(4, 7);
  field.type(3, 3, '!');
  other.type(4, 7, 'TWO');
  net.deliver();
  assert.deepStrictEqual([caretOf(field), caretOf(other)], ['one![] TWO', 'one! TWO[]']);
  assert.deepStrictEqual(ada.data, ben.data);
});
