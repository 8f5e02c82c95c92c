/* Bound text fields in Chromium, with its keys, input method and selections. Skipped if there is no chromium. */

import assert from 'node:assert';
import { test } from 'node:test';
import { hasChromium, inChromium } from './support/chromium.js';

const OPTIONS = { timeout: Number(process.env.TIMEOUT || 120000), skip: !hasChromium() && 'there is no chromium' };

// Two clients at the model's server, which is in the page. Each has a text area that is bound to the title.
const PAGE = `<!doctype html>
<textarea id="ada" rows="4"></textarea><textarea id="ben"></textarea><input id="mail" type="email">
<script type="module">
  globalThis.Buffer = { byteLength: (text) => new TextEncoder().encode(text).length };
  const { UndoManager, bindText } = await import('/client/src/index.js');
  const { Net } = await import('/client/test/support/net.js');
  const net = new Net();
  const [ada, ben] = ['ada', 'ben'].map((name) => net.client(name).doc);
  for (const doc of [ada, ben]) doc.subscribe();
  net.deliver();
  ada.create({ title: 'one two three', mail: 'a@b' });
  net.deliver();
  const field = document.getElementById('ada');
  const undo = new UndoManager(ada, { groupBy: 0 });
  bindText(field, ada, ['title'], { undo });
  bindText(document.getElementById('ben'), ben, ['title']);
  bindText(document.getElementById('mail'), ada, ['mail']);
  window.changes = 0; // of the field's value by the program
  const { get, set } = Object.getOwnPropertyDescriptor(HTMLTextAreaElement.prototype, 'value');
  Object.defineProperty(field, 'value', { get, set(text) { window.changes += 1; set.call(this, text); } });
  window.caret = () => {
    const { value, selectionStart, selectionEnd } = field;
    return [value.slice(0, selectionStart), value.slice(selectionStart, selectionEnd)];
  };
  window.select = (from, to) => { field.focus(); field.setSelectionRange(from, to); };
  window.shown = () => ['ada', 'ben'].map((id) => document.getElementById(id).value);
  Object.assign(window, { net, ada, ben, undo, field });
</script>`;

function play(steps) {
  return inChromium(PAGE, 'window.undo', steps);
}

test('typing, and a selection that others move', OPTIONS, () => play(async (tab) => {
  await tab.evaluate('select(7, 7)');
  await tab.call('Input.insertText', { text: '!😀' });
  await tab.evaluate('net.deliver()');
  assert.deepStrictEqual(await tab.evaluate('shown()'), Array(2).fill('one two!😀 three'));
  assert.strictEqual(await tab.evaluate('changes'), 0);
  await tab.evaluate(`select(4, 7); ben.insert(['title'], 0, 'zero '); ben.insert(['title'], 12, '?'); net.deliver()`);
  assert.deepStrictEqual(await tab.evaluate('caret()'), ['zero one ', 'two']);
  await tab.evaluate(`ben.removeRange(['title'], 0, 9); net.deliver()`);
  assert.deepStrictEqual(await tab.evaluate('caret()'), ['', 'two']);
}));

test('a composition of the input method, while others edit', OPTIONS, () => play(async (tab) => {
  await tab.evaluate('select(3, 3)');
  const shown = [];
  for (const [text, at] of [['t', 0], ['とう', 14]]) {
    await tab.call('Input.imeSetComposition', { text, selectionStart: text.length, selectionEnd: text.length });
    await tab.evaluate(`ben.insert(['title'], ${at}, '-'); net.deliver()`);
    shown.push(await tab.evaluate('[field.value, changes]'));
  }
  assert.deepStrictEqual(shown, [['onet two three', 0], ['oneとう two three', 0]]);
  await tab.call('Input.insertText', { text: '東京' });
  await tab.evaluate('net.deliver()');
  assert.deepStrictEqual(await tab.evaluate('shown()'), Array(2).fill('-one東京 two three-'));
  assert.deepStrictEqual(await tab.evaluate('caret()'), ['-one東京', '']);
}));

test('keys undo and redo own edits only', OPTIONS, () => play(async (tab) => {
  await tab.evaluate('select(13, 13)');
  for (const text of [' four', ' five']) await tab.call('Input.insertText', { text });
  await tab.evaluate(`net.deliver(); ben.insert(['title'], 18, ','); ben.insert(['title'], 0, '> '); net.deliver()`);
  const titles = [];
  for (const [key, modifiers] of [['z', 2], ['z', 2], ['z', 2], ['Z', 10], ['y', 2]]) {
    await tab.press(key, modifiers);
    titles.push(await tab.evaluate('field.value'));
  }
  const [none, one, both] = ['> one two three,', '> one two three four,', '> one two three four, five'];
  assert.deepStrictEqual(titles, [one, none, none, one, both]);
  assert.deepStrictEqual(await tab.evaluate('caret()'), [both, '']);
  await tab.press('a', 0, { commands: ['undo'] });
  assert.strictEqual(await tab.evaluate('field.value'), one, 'the command of the menu');
  await tab.evaluate('net.deliver()');
  assert.deepStrictEqual(await tab.evaluate('shown()'), [one, one]);
}));

test('a field stays at its scroll offset, and a field without selections works', OPTIONS, () => play(async (tab) => {
  await tab.evaluate(`ben.set(['title'], 'line\\n'.repeat(99)); net.deliver()`);
  await tab.evaluate('select(200, 200); field.scrollTop = 300');
  await tab.evaluate(`ben.insert(['title'], 495, 'end'); net.deliver()`);
  const offsets = await tab.evaluate('[field.scrollTop, field.selectionStart, field.value.length]');
  assert.deepStrictEqual(offsets, [300, 200, 498]);
  await tab.evaluate(`document.getElementById('mail').focus()`);
  await tab.call('Input.insertText', { text: 'x' });
  await tab.evaluate(`ben.fetch(); net.deliver(); ben.insert(['mail'], 0, 'y'); net.deliver()`);
  const mails = await tab.evaluate(`[ada.data.mail, ben.data.mail, document.getElementById('mail').value]`);
  assert.deepStrictEqual([...mails[0]].sort().join(''), '@abxy');
  assert.deepStrictEqual(mails, Array(3).fill(mails[0]));
}));
