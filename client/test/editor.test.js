/* The recipe of docs/CLIENT.md for a text field, with an input method that composes while another client edits. */

import fs from 'node:fs';
import { test } from 'node:test';
import { compose, cross, textChange, transformOffset } from '../src/index.js';
import { composeRandomly, composeWhileDeleted, composeWhileEdited } from './support/compositions.js';
import { OPTIONS } from './support/options.js';

// Binds the field as docs/CLIENT.md has it.
function bind(doc, field) {
  const text = fs.readFileSync(new URL('../../docs/CLIENT.md', import.meta.url), 'utf8');
  const [, code] = /```js editor\n([^`]*)```/.exec(text);
  new Function('doc', 'field', 'compose', 'cross', 'textChange', 'transformOffset', code)(
    doc, field, compose, cross, textChange, transformOffset);
  field.text = doc.data.title;
}

test('a composition that another client\'s edits meet', OPTIONS, () => composeWhileEdited(bind));

test('a document that is deleted and created during a composition', OPTIONS, () => composeWhileDeleted(bind));

test('random compositions: no letter is lost or doubled', OPTIONS, () => composeRandomly(bind));
