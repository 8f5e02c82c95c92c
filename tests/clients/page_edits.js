/*
 * Runs in the page for page.py: it edits as a user does, by the fields and buttons of both views.
 * Each edit picks a view and uses the page's own listeners.
 */
window.pageEdits = (() => {
  'use strict';

  const EVERY = 5; // one version in this number is compared at the end
  const CARDS = 8; // maximal length of a column
  const TEXT = 300; // maximal length of a text
  const PIECES = ['a', 'bc', '😀', 'word ', '\n', 'é', '漢字', '🎉🎉'];

  let state = 1; // of the random choices, which a seed determines

  function random(below) {
    state = (Math.imul(state, 1664525) + 1013904223) >>> 0;
    return Math.floor((state / 4294967296) * below);
  }

  function pick(list) {
    return list[random(list.length)];
  }

  function pause(milliseconds) {
    return new Promise((resolve) => setTimeout(resolve, milliseconds));
  }

  // Changes some letters of a field, as typing does; often at the start or the end, where others write too.
  function type(field, most) {
    const points = [...field.value];
    const from = pick([0, random(points.length + 1), points.length]);
    const start = points.slice(0, from).join('').length;
    const removed = random(most) < points.length ? points.slice(from, from + 1 + random(6)).join('').length : 0;
    const piece = pick(field.tagName === 'INPUT' ? PIECES.slice(0, 3) : PIECES);
    field.setRangeText(removed > 0 ? '' : piece, start, start + removed, 'end');
    field.dispatchEvent(new InputEvent('input', { bubbles: true }));
  }

  function click(root, selector) {
    const found = [...root.querySelectorAll(selector)];
    if (found.length > 0) pick(found).click();
  }

  function addOrRemove(root) {
    const column = pick([...root.querySelectorAll('.column')]);
    const full = column.querySelectorAll('.card').length >= CARDS;
    click(column, full || random(2) ? '.remove' : '.add');
  }

  function edit({ element }) {
    const titles = [...element.querySelectorAll('.title')];
    const kind = random(8);
    if (kind < 3) type(element.querySelector('textarea'), TEXT);
    else if (kind === 3) addOrRemove(element);
    else if (kind === 4 && titles.length > 0) type(pick(titles), 20);
    else click(element, ['.vote', '.done', '.back', '.on'][kind % 4]);
  }

  async function interrupt(view) {
    view.find('.connection').click();
    await pause(random(60));
    for (let more = random(4); more > 0; more -= 1) edit(view);
    view.find('.connection').click();
  }

  function ready() {
    return views.every((view) => view.client.state === 'connected' && view.shared.data !== undefined);
  }

  // Returns a view's document at every fifth version, and the versions at which it was replaced.
  function remember({ shared }) {
    const kept = { held: {}, healed: [] };
    shared.on('healed', ({ version }) => kept.healed.push(version));
    shared.on('version', () => {
      if (shared.version % EVERY === 0) kept.held[shared.version] = JSON.stringify(shared.confirmed);
    });
    return kept;
  }

  let remembered = [];

  async function run(edits, seed) {
    state = seed;
    while (!ready()) await pause(10);
    remembered = views.map(remember);
    for (let made = 0; made < edits; made += 1) {
      const view = pick(views);
      if (random(40) === 0) await interrupt(view);
      edit(view);
      if (random(3) > 0) await pause(random(12));
    }
    await finish();
  }

  async function finish() {
    await Promise.all(views.map((view) => view.shared.whenNothingPending()));
    views[0].shared.submit([{ p: ['finished-page'], oi: true }]);
    await views[0].shared.whenNothingPending();
  }

  // Waits until both views have the keys of all finished clients.
  async function follow(clients) {
    const finished = (view) => Object.keys(view.shared.data).filter((key) => key.startsWith('finished-')).length;
    while (!views.every((view) => finished(view) >= clients)) await pause(20);
    while (views[0].shared.version !== views[1].shared.version) await pause(20);
  }

  // Returns what the screen shows, in the form of the document.
  function shown(view) {
    const cardOf = (card) => ({
      title: card.querySelector('.title').value,
      done: card.querySelector('.done').checked,
      votes: Number(card.querySelector('.vote').textContent.slice(2)),
    });
    const columns = [...view.element.querySelectorAll('.column')];
    return {
      text: view.find('textarea').value,
      columns: columns.map((column) => ({
        name: column.querySelector('h3').textContent,
        cards: [...column.querySelectorAll('.card')].map(cardOf),
      })),
    };
  }

  function results() {
    const held = ({ shared }) => ({ version: shared.version, data: shared.data });
    return views.map((view, at) => ({ ...remembered[at], ...held(view), shown: shown(view) }));
  }

  // A caret stays between its two letters while the other view writes.
  async function caret() {
    while (!ready()) await pause(10);
    const [left, right] = views.map((view) => view.find('textarea'));
    const settled = async () => {
      await Promise.all(views.map((view) => view.shared.whenNothingPending()));
      while (views[0].shared.version !== views[1].shared.version) await pause(10);
    };
    const write = async (field, text, start, end) => {
      field.setRangeText(text, start, end, 'end');
      field.dispatchEvent(new InputEvent('input', { bubbles: true }));
      await settled();
    };
    await write(left, 'one two three', 0, left.value.length);
    left.setSelectionRange(4, 7); // two
    await write(right, '😀 zero ', 0, 0); // before it
    await write(right, ' four', right.value.length, right.value.length); // after it
    await write(right, '', 0, 3); // a part of the text before it
    return [left.value, left.value.slice(left.selectionStart, left.selectionEnd)];
  }

  async function opened() {
    while (!ready()) await pause(10);
  }

  return { run, follow, results, caret, opened };
})();
