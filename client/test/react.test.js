/* The hook for React, with a stand-in for `useSyncExternalStore` that does what React documents of it. */

import assert from 'node:assert';
import fs from 'node:fs';
import { test } from 'node:test';
import { docHook } from '../src/react.js';
import { flush } from './support/clock.js';
import { Net } from './support/net.js';
import { OPTIONS } from './support/options.js';

// A root that renders one component: it subscribes once for each function, and renders again if the snapshot differs.
class Root {
  constructor(component) {
    Object.assign(this, { component, renders: [], subscriptions: 0, subscribe: null, stop: () => {} });
    this.useSyncExternalStore = (subscribe, read, server) => {
      const value = read();
      assert.ok(Object.is(read(), value), 'the snapshot should be cached');
      assert.ok(Object.is(server(), value));
      this.read = read;
      this.value = value;
      if (subscribe !== this.subscribe) {
        this.stop();
        this.subscribe = subscribe;
        this.subscriptions += 1;
        this.stop = subscribe(() => Object.is(this.read(), this.value) || this.render());
      }
      return value;
    };
  }

  render(...props) {
    if (props.length > 0) this.props = props;
    this.renders.push(this.component(...this.props));
  }
}

async function edited() {
  const net = new Net();
  const [ada, ben] = ['ada', 'ben'].map((name) => net.client(name).doc);
  for (const doc of [ada, ben]) doc.subscribe();
  net.deliver();
  return { net, ada, ben };
}

test('`useDoc` renders again after each change of its value, and subscribes once', OPTIONS, async () => {
  const { net, ada, ben } = await edited();
  const all = new Root((doc) => useAll(doc));
  const useAll = docHook(all.useSyncExternalStore);
  const part = new Root((doc, path) => usePart(doc, path));
  const usePart = docHook(part.useSyncExternalStore);
  all.render(ada);
  part.render(ada, ['cards', 'x']);
  ada.create({ title: 'a', cards: { x: { n: 1 }, y: { n: 1 } } });
  net.deliver();
  ben.set(['cards', 'y', 'n'], 2);
  net.deliver();
  ada.set(['cards', 'x', 'n'], 3);
  part.render(ada, ['cards', 'x']); // (by its parent, with another path of the same steps)
  assert.deepStrictEqual(all.renders.map((data) => data && data.cards.x.n + data.cards.y.n), [undefined, 2, 3, 5]);
  assert.deepStrictEqual(part.renders, [undefined, { n: 1 }, { n: 3 }, { n: 3 }]);
  assert.strictEqual(part.renders[2], part.renders[3]);
  assert.deepStrictEqual([all.subscriptions, part.subscriptions], [1, 1]);
  part.render(ben, ['title']);
  assert.deepStrictEqual([part.renders[4], part.subscriptions], ['a', 2]);
  for (const root of [all, part]) root.stop();
  ben.set(['title'], 'b');
  net.deliver();
  await flush();
  assert.deepStrictEqual([all.renders.length, part.renders.length], [4, 5]);
});

test('the component of the document', OPTIONS, async () => {
  const { net, ada } = await edited();
  const text = fs.readFileSync(new URL('../../docs/CLIENT.md', import.meta.url), 'utf8');
  const [, code] = /```js react\n([^]*?)```/.exec(text);
  const root = new Root((props) => Title(props));
  const program = code.replace(/^import.*\n/gm, '');
  const { Title } = new Function('useSyncExternalStore', 'docHook', `${program}\nreturn { Title };`)(root.useSyncExternalStore, docHook);
  root.render({ board: ada });
  ada.create({ title: 'Plan' });
  net.deliver();
  assert.deepStrictEqual(root.renders, ['loading', 'Plan']);
});
