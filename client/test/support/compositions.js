/* Compositions of an input method in a field that is bound to the title of a document, while others edit it. */

import assert from 'node:assert';
import { Field } from './field.js';
import { Net } from './net.js';
import { choices, seedOf } from './random.js';

const RUNS = Number(process.env.RUNS || 12) * 10;
const LETTERS = { ada: 'aàあ', ben: 'bBВ' };

/** Returns two clients of a document with a title, and a field that is bound to the first one's. */
export function started(bind, title) {
  const net = new Net();
  const [ada, ben] = [net.client('ada').doc, net.client('ben').doc];
  for (const doc of [ada, ben]) doc.subscribe();
  net.deliver();
  ada.create({ title });
  net.deliver();
  const field = new Field();
  bind(ada, field);
  field.changes = 0;
  return { net, ada, ben, field };
}

/** A composition that another client's edits meet. */
export function composeWhileEdited(bind) {
  const { net, ada, ben, field } = started(bind, 'abc');
  field.setSelectionRange(1, 1);
  field.emit('compositionstart');
  for (const [to, text] of [[1, 't'], [2, 'とう'], [3, '東京']]) {
    field.type(1, to, text);
    ben.submit([{ p: ['title', 0], si: '-' }, { p: ['title', ben.data.title.length + 1], si: '!' }]);
    net.deliver();
    assert.deepStrictEqual([field.value, field.changes, ada.pending], [`a${text}bc`, 0, 0]);
  }
  field.emit('compositionend');
  net.deliver();
  assert.deepStrictEqual([field.value, ada.data.title, ben.data.title], Array(3).fill('---a東京bc!!!'));
  assert.deepStrictEqual([field.selectionStart, field.selectionEnd], [6, 6]);
  field.type(6, 6, 'd');
  net.deliver();
  assert.strictEqual(ben.data.title, '---a東京dbc!!!');
}

/** A document that is deleted and created during a composition. */
export function composeWhileDeleted(bind) {
  const { net, ada, ben, field } = started(bind, 'abc');
  field.emit('compositionstart');
  field.type(0, 0, 'x');
  ben.remove();
  net.deliver();
  ben.create({ title: 'new' });
  net.deliver();
  assert.strictEqual(field.value, 'xabc');
  field.emit('compositionend');
  net.deliver();
  assert.strictEqual(field.value, ada.data.title);
  assert.strictEqual(ada.data.title, ben.data.title);
  ben.remove();
  net.deliver();
  field.emit('compositionstart');
  field.type(0, 0, 'y');
  field.emit('compositionend');
  assert.strictEqual(ada.data, undefined);
  ben.create({ title: 'again' });
  net.deliver();
  assert.strictEqual(field.value, 'again');
}

/** Random compositions: no letter is lost or doubled. */
export function composeRandomly(bind) {
  const seed = seedOf('compositions');
  for (let run = 0; run < RUNS; run += 1) {
    const { random, pick } = choices(seed + run);
    const { net, ada, ben, field } = started(bind, '|||');
    let typed = 0;
    let isComposing = false;
    for (let step = 0; step < 60; step += 1) {
      const kind = random(6);
      if (kind === 0) {
        isComposing = !isComposing;
        field.emit(isComposing ? 'compositionstart' : 'compositionend');
      } else if (kind < 3) {
        const at = random(field.value.length + 1);
        field.type(at, at, pick(LETTERS.ada));
        typed += 1;
      } else if (kind < 5) {
        ben.submit([{ p: ['title', random(ben.data.title.length + 1)], si: pick(LETTERS.ben) }]);
      } else {
        net.deliver();
      }
      const { changes } = field;
      net.up(net.links[random(2)]);
      net.down(net.links[random(2)]);
      if (isComposing) assert.strictEqual(field.changes, changes);
      else assert.strictEqual(field.value, ada.data.title, `SEED=${seed + run}`);
    }
    if (isComposing) field.emit('compositionend');
    net.deliver();
    const { title } = ben.data;
    assert.deepStrictEqual([ada.data.title, field.value], [title, title], `SEED=${seed + run}`);
    assert.strictEqual([...title].filter((letter) => LETTERS.ada.includes(letter)).length, typed, `SEED=${seed + run}`);
  }
}
