/* The binding for CodeMirror 6, with a stand-in of its interface. */

import assert from 'node:assert';
import fs from 'node:fs';
import { test } from 'node:test';
import { UndoManager } from '../src/index.js';
import { codeMirror } from '../src/codemirror.js';
import { flush } from './support/clock.js';
import * as modules from './support/codemirror.js';
import { Net } from './support/net.js';
import { OPTIONS } from './support/options.js';
import { choices, seedOf } from './support/random.js';

const RUNS = Number(process.env.RUNS || 20);
const later = () => new Promise((resolve) => setTimeout(resolve, 1));

async function started(data = { title: 'one two three' }, options = {}, path = ['title']) {
  const net = new Net();
  const [ada, ben] = ['ada', 'ben'].map((name) => net.client(name).doc);
  for (const doc of [ada, ben]) doc.subscribe();
  net.deliver();
  ada.create(data);
  net.deliver();
  const undo = new UndoManager(ada, { groupBy: 0 });
  const told = [];
  const settings = { ...(options.undo ? { undo } : {}), refused: (error) => told.push(error.code) };
  const extensions = codeMirror(modules, ada, path, settings);
  const view = new modules.EditorView({ doc: options.doc === undefined ? 'one two three' : options.doc, extensions });
  await flush();
  return { net, ada, ben, undo, told, view };
}

test('transactions are sent, and operations of others are dispatched once', OPTIONS, async () => {
  const { net, ada, ben, view } = await started();
  view.type(3, 3, ' 😀\n');
  view.type(0, 3, 'ONE');
  assert.deepStrictEqual([ada.data.title, ada.pending], ['ONE 😀\n two three', 2]);
  net.deliver();
  view.type(3, 3, '!');
  ben.insert(['title'], 0, '> ');
  ben.removeRange(['title'], 9, 4);
  net.deliver();
  net.deliver();
  const before = view.transactions.length;
  await flush();
  assert.deepStrictEqual([view.text, view.state.caret, view.transactions.length], [ada.data.title, 6, before + 1]);
  assert.strictEqual(ben.data.title, ada.data.title);
  const last = view.transactions[before];
  const { remote, addToHistory } = modules.Transaction;
  assert.deepStrictEqual([last.annotation(remote), last.annotation(addToHistory)], [true, false]);
  assert.deepStrictEqual([ada.pending, view.lineSeparator], [0, '\n']);
});

test('the program of the document', OPTIONS, async () => {
  const { net, ada } = await started();
  const text = fs.readFileSync(new URL('../../docs/CLIENT.md', import.meta.url), 'utf8');
  const [, code] = /```js codemirror\n([^]*?)```/.exec(text);
  const program = `${code.replace(/^import.*\n/gm, '')}\nreturn editor;`;
  const names = ['state', 'view', 'codeMirror', 'UndoManager', 'doc', 'document'];
  const editor = new Function(...names, program)(modules, modules, codeMirror, UndoManager, ada, { body: null });
  editor.type(0, 0, '> ');
  net.deliver();
  assert.deepStrictEqual([ada.data.title, Object.keys(editor.keys).length], ['> one two three', 3]);
});

test('a composition isn\'t disturbed: what was received is shown at its end', OPTIONS, async () => {
  const { net, ada, ben, view } = await started();
  view.compose(true);
  view.type(3, 3, 'と');
  ben.insert(['title'], 0, '- ');
  ben.set(['other'], 1);
  net.deliver();
  await flush();
  const shown = view.transactions.length;
  view.type(3, 4, 'とう');
  ben.insert(['title'], 16, '?');
  net.deliver();
  net.deliver();
  await flush();
  assert.deepStrictEqual([view.text, view.transactions.length], ['oneとう two three', shown + 1]);
  view.type(3, 5, '東');
  view.compose(false);
  assert.strictEqual(view.text, 'one東 two three');
  await later();
  net.deliver();
  assert.deepStrictEqual([view.text, view.state.caret], [ada.data.title, 6]);
  assert.deepStrictEqual([ben.data.title, ada.data.title.replace('?', '')], [ada.data.title, '- one東 two three']);
  view.compose(true);
  ben.insert(['title'], 0, '+');
  net.deliver();
  await later();
  assert.strictEqual(view.text[0], '-');
  view.compose(false);
  await later();
  assert.strictEqual(view.text, ada.data.title);
});

test('keys and the menu undo own edits only, with the caret after what was undone', OPTIONS, async () => {
  const { net, ada, ben, view } = await started(undefined, { undo: true });
  view.type(13, 13, ' four');
  net.deliver();
  view.type(18, 18, ' five');
  ben.insert(['title'], 0, '> ');
  net.deliver();
  net.deliver();
  const titles = [];
  const press = async (key) => {
    assert.strictEqual(view.keys[key](view), true);
    await flush();
    titles.push([view.text, view.state.caret]);
  };
  for (const key of ['Mod-z', 'Mod-z', 'Mod-z', 'Mod-Shift-z', 'Ctrl-y']) await press(key);
  const [none, one, both] = ['> one two three', '> one two three four', '> one two three four five'];
  assert.deepStrictEqual(titles, [[one, 20], [none, 15], [none, 15], [one, 20], [both, 25]]);
  let isPrevented = false;
  const event = { inputType: 'historyUndo', preventDefault: () => (isPrevented = true) };
  assert.deepStrictEqual([view.handlers.beforeinput(event, view), isPrevented], [true, true]);
  assert.strictEqual(view.handlers.beforeinput({ inputType: 'insertText' }, view), false);
  await flush();
  net.deliver();
  assert.deepStrictEqual([view.text, ada.data.title, ben.data.title], [one, one, one]);
  assert.deepStrictEqual((await started()).view.keys, {});
});

test('a refused edit is reported, and the document\'s text is shown again', OPTIONS, async () => {
  const { net, ada, told, view } = await started();
  view.type(0, 0, 'x'.repeat(1200000));
  await flush();
  assert.deepStrictEqual([view.text, told], ['one two three', ['ERR_MESSAGE_BADLY_FORMED']]);
  view.type(0, 0, 'y');
  net.deliver();
  assert.strictEqual(ada.data.title, 'yone two three');
});

test('an edit that cuts a surrogate pair replaces the pair', OPTIONS, async () => {
  const { net, ada, told, view } = await started({ title: 'a😀b' }, { doc: 'a😀b' });
  view.type(2, 3, '\ude01');
  net.deliver();
  assert.deepStrictEqual([ada.data.title, view.text, told], ['a😁b', 'a😁b', []]);
});

test('a text that is replaced, removed, set again, or moved in a list', OPTIONS, async () => {
  const { net, ada, ben, view } = await started({ l: [{ t: 'abc' }] }, { doc: '' }, ['l', 0, 't']);
  assert.strictEqual(view.text, 'abc');
  ben.insert(['l'], 0, { t: 'other' });
  net.deliver();
  const shown = view.transactions.length;
  await flush();
  view.type(3, 3, 'd');
  net.deliver();
  assert.strictEqual(view.transactions.length, shown + 1, 'the list alone has changed');
  assert.deepStrictEqual(ada.data.l.map(({ t }) => t), ['other', 'abcd']);
  ben.insert(['l'], 0, { t: 'first' });
  ben.insert(['l', 2, 't'], 4, 'e');
  net.deliver();
  net.deliver();
  await flush();
  assert.strictEqual(view.text, 'abcde');
  ben.removeAt(['l', 0]);
  ben.set(['l', 1, 't'], 'new');
  net.deliver();
  await flush();
  assert.strictEqual(view.text, 'new');
  ben.removeAt(['l', 1, 't']);
  net.deliver();
  view.type(3, 3, '!');
  ben.set(['l', 1, 't'], 'back');
  net.deliver();
  view.type(0, 0, '?');
  await flush();
  net.deliver();
  assert.deepStrictEqual([view.text, ada.data.l[1].t, ben.data.l[1].t], Array(3).fill('?back'));
  ben.removeAt(['l', 1]);
  net.deliver();
  view.type(0, 0, 'kept');
  await flush();
  assert.deepStrictEqual([ada.data.l, view.text.startsWith('kept')], [[{ t: 'other' }], true]);
  view.destroy();
  assert.strictEqual(ada._doc().observers.size, 1, 'the manager\'s');
});

test('random typing, compositions and edits of others: the editor has the document\'s text', OPTIONS, async () => {
  const seed = seedOf('codemirror');
  for (let run = 0; run < RUNS; run += 1) {
    const { random, pick } = choices(seed + run);
    const { net, ada, ben, told, view } = await started({ title: 'a😀b\nc', l: [] }, { doc: 'a😀b\nc', undo: true });
    const offset = (text) => {
      const points = [...text];
      return points.slice(0, random(points.length + 1)).join('').length;
    };
    const typed = () => {
      const [from, to] = [offset(view.text), offset(view.text)].sort((one, other) => one - other);
      view.type(from, random(3) ? from : to, pick(['x', '😀', '\n', 'yz', '']));
    };
    for (let made = 0; made < 120; made += 1) {
      const kind = random(12);
      const { title } = ben.data;
      if (kind < 4) typed();
      else if (kind < 6) ben.insert(['title'], offset(title), pick(['B', 'CC', '😁']));
      else if (kind === 6 && title.length > 20) ben.set(['title'], 'short');
      else if (kind === 7) view.compose(!view.composing);
      else if (kind === 8) view.keys[pick(['Mod-z', 'Mod-Shift-z'])](view);
      else if (kind === 9) await flush();
      else net.deliver();
    }
    view.compose(false);
    await later();
    for (let round = 0; round < 3; round += 1) {
      net.deliver();
      await flush();
    }
    assert.deepStrictEqual([view.text, ben.data.title], [ada.data.title, ada.data.title], `SEED=${seed + run} RUNS=1`);
    assert.deepStrictEqual(told, [], `SEED=${seed + run} RUNS=1`);
  }
});
