/*
 * The page with two clients (index.html): a text and a board of cards, both in one document. Each view is a client of
 * its own. An edit in a view becomes an operation on its document. Operations of others are received, and the view is
 * drawn from the document again.
 *
 *     { "text": TEXT, "columns": [NAME], "cards": { ID: { "column": INDEX, "rank": TEXT, "title", "done", "votes" } } }
 *
 * Cards are in an object by id. A move replaces a card's column and rank, so an edit of its title is kept meanwhile.
 */
'use strict';

const COLLECTION = 'examples';
const NOTICE_STAYS = 10000; // milliseconds for a notice of lost edits
const DIGITS = '0123456789abcdefghijklmnopqrstuvwxyz';

const START = {
  text: 'Two views, one document.\n\nType here, on both sides at once. Each view is a client with its own connection.\n',
  columns: ['To do', 'Doing', 'Done'],
  cards: {
    'first-1': { ...card(0, 'i', 'Add a third client'), votes: 2 },
    'first-2': card(0, 'r', 'Write the minutes'),
    'first-3': { ...card(1, 'i', 'Try emoji 🎉'), votes: 5 },
    'first-4': { ...card(2, 'i', 'Start the server'), done: true, votes: 1 },
  },
};

const VIEWS = [
  { name: 'Ada', accent: 'var(--ada)' },
  { name: 'Ben', accent: 'var(--ben)' },
];

function card(column, rank, title) {
  return { column, rank, title, done: false, votes: 0 };
}

function randomId() {
  return [...crypto.getRandomValues(new Uint8Array(10))].map((byte) => DIGITS[byte % DIGITS.length]).join('');
}

/** Returns a rank between two ranks, as texts are compared. An empty `low` or a null `high` is an open end. */
function rankBetween(low, high) {
  let rank = '';
  for (let at = 0; ; at += 1) {
    const first = at < low.length ? DIGITS.indexOf(low[at]) : 0;
    const last = high !== null && at < high.length ? DIGITS.indexOf(high[at]) : DIGITS.length;
    if (last - first > 1) return rank + DIGITS[(first + last) >> 1];
    rank += DIGITS[first];
    if (first < last) high = null;
  }
}

/** Returns the ids of a column's cards by rank. Equal ranks, of concurrent inserts, are ordered by id. */
function idsOf(data, column) {
  const key = (id) => `${data.cards[id].rank} ${id}`;
  const ids = Object.keys(data.cards).filter((id) => data.cards[id].column === column);
  return ids.sort((one, other) => (key(one) < key(other) ? -1 : 1));
}

function fromTemplate(name) {
  return document.getElementById(name).content.firstElementChild.cloneNode(true);
}

/** One card on the screen. */
class CardElement {
  constructor(board, id) {
    this.board = board;
    this.id = id;
    this.element = fromTemplate('card');
    this.done = this.element.querySelector('.done');
    this.vote = this.element.querySelector('.vote');
    this.title = this.element.querySelector('.title');
    this.binding = Navirotsohy.bindText(this.title, board.shared, ['cards', id, 'title'], board.options);
    this.listen();
  }

  listen() {
    const { board, element, id } = this;
    this.done.addEventListener('change', () => board.replace(id, { done: this.done.checked }));
    this.vote.addEventListener('click', () => board.submit([{ p: ['cards', id, 'votes'], na: 1 }]));
    element.querySelector('.back').addEventListener('click', () => board.moveToColumn(id, -1));
    element.querySelector('.on').addEventListener('click', () => board.moveToColumn(id, 1));
    element.querySelector('.remove').addEventListener('click', () => board.remove(id));
    element.addEventListener('keydown', (event) => this.press(event));
    element.addEventListener('dragstart', () => (board.dragged = id));
    element.addEventListener('dragend', () => (board.dragged = null));
  }

  // The keyboard can do what dragging does.
  press(event) {
    const moves = { ArrowLeft: [-1, 0], ArrowRight: [1, 0], ArrowUp: [0, -1], ArrowDown: [0, 1] };
    if (event.altKey && moves[event.key]) this.board.moveBy(this.id, ...moves[event.key]);
    else if (event.altKey && event.key === 'Delete') this.board.remove(this.id);
    else if (event.key === 'Enter' && event.target === this.title) this.board.insertBelow(this.id);
    else return;
    event.preventDefault();
  }

  focus() {
    this.title.focus();
  }

  show(data) {
    this.done.checked = data.done;
    this.vote.textContent = `▲ ${data.votes}`;
    this.element.classList.toggle('ticked', data.done);
  }
}

/** The columns of cards. */
class Board {
  constructor(element, shared, options) {
    this.element = element;
    this.shared = shared;
    this.options = options; // of the titles' bindings
    this.lists = [];
    this.headings = [];
    this.cards = new Map(); // by id
    this.dragged = null;
  }

  // Edits ----------------------------------------------------------------------------------------------------

  submit(operation) {
    this.shared.submit(operation).catch(this.options.refused);
  }

  // Replaces members of a card, each by one component.
  replace(id, members) {
    const before = this.shared.data.cards[id];
    this.submit(Object.entries(members).map(([key, oi]) => ({ p: ['cards', id, key], od: before[key], oi })));
  }

  // Returns the rank of a card that is inserted at an index of a column. A card that is moved doesn't count.
  rankAt(column, index, moved = null) {
    const { data } = this.shared;
    const ids = idsOf(data, column).filter((id) => id !== moved);
    const low = index > 0 ? data.cards[ids[index - 1]].rank : '';
    const next = ids.slice(index).find((id) => data.cards[id].rank > low);
    return rankBetween(low, next === undefined ? null : data.cards[next].rank);
  }

  add(column) {
    this.insert(column, idsOf(this.shared.data, column).length);
  }

  insertBelow(id) {
    const { column } = this.shared.data.cards[id];
    this.insert(column, idsOf(this.shared.data, column).indexOf(id) + 1);
  }

  insert(column, index) {
    const id = randomId();
    this.submit([{ p: ['cards', id], oi: card(column, this.rankAt(column, index), '') }]);
    this.cards.get(id).focus();
  }

  // The keyboard's focus moves to the card that takes the position, or to the column's button.
  remove(id) {
    const { column } = this.shared.data.cards[id];
    const index = idsOf(this.shared.data, column).indexOf(id);
    const inside = this.cards.get(id).element.contains(document.activeElement);
    this.submit([{ p: ['cards', id], od: this.shared.data.cards[id] }]);
    const left = idsOf(this.shared.data, column);
    const next = left[Math.min(index, left.length - 1)];
    if (!inside) return;
    if (next) this.cards.get(next).focus();
    else this.lists[column].parentElement.querySelector('.add').focus();
  }

  moveBy(id, columns, rows) {
    const { column } = this.shared.data.cards[id];
    const ids = idsOf(this.shared.data, column);
    const index = ids.indexOf(id) + rows;
    if (columns !== 0) this.moveToColumn(id, columns);
    else if (index >= 0 && index < ids.length) this.move(id, column, index);
  }

  moveToColumn(id, by) {
    const column = this.shared.data.cards[id].column + by;
    if (column in this.shared.data.columns) this.move(id, column, idsOf(this.shared.data, column).length);
  }

  // The index is one of the column without the card.
  move(id, column, index) {
    this.replace(id, { column, rank: this.rankAt(column, index, id) });
  }

  drop(event, column) {
    event.preventDefault();
    if (this.dragged === null || !this.cards.has(this.dragged)) return;
    const others = idsOf(this.shared.data, column).filter((id) => id !== this.dragged);
    const below = others.findIndex((id) => {
      const { top, height } = this.cards.get(id).element.getBoundingClientRect();
      return event.clientY < top + height / 2;
    });
    this.move(this.dragged, column, below < 0 ? others.length : below);
  }

  // Drawing ------------------------------------------------------------------------------------------------

  show(data) {
    while (this.lists.length < data.columns.length) this.addColumn();
    const focused = document.activeElement;
    for (const [id, one] of this.cards) if (!Object.hasOwn(data.cards, id)) this.forget(id, one);
    data.columns.forEach((name, column) => {
      this.headings[column].textContent = name;
      const list = this.lists[column];
      idsOf(data, column).forEach((id, index) => this.showCard(id, data.cards[id], list, index));
    });
    if (focused !== document.activeElement) focused.focus({ preventScroll: true });
  }

  showCard(id, data, list, index) {
    if (!this.cards.has(id)) this.cards.set(id, new CardElement(this, id));
    const one = this.cards.get(id);
    one.show(data);
    if (list.children[index] !== one.element) list.insertBefore(one.element, list.children[index] || null);
  }

  forget(id, one) {
    this.cards.delete(id);
    one.binding.unbind();
    one.element.remove();
  }

  addColumn() {
    const column = this.lists.length;
    const element = fromTemplate('column');
    this.lists.push(element.querySelector('ol'));
    this.headings.push(element.querySelector('h3'));
    element.querySelector('.add').addEventListener('click', () => this.add(column));
    element.addEventListener('dragover', (event) => event.preventDefault());
    element.addEventListener('drop', (event) => this.drop(event, column));
    this.element.append(element);
  }
}

/** One of the two views: a client, its connection, and its view of the shared document. */
class View {
  constructor({ name, accent }, address, id) {
    this.element = fromTemplate('view');
    this.element.style.setProperty('--accent', accent);
    this.element.id = name.toLowerCase();
    this.find('h2').textContent = name;
    this.client = new Navirotsohy.Client(address, { source: `${name.toLowerCase()}-${randomId()}` });
    this.shared = this.client.document(COLLECTION, id);
    this.isWanted = true; // the connection
    this.closing = ''; // why the last one ended
    this.noticeStays = 0; // the time until which it is shown
    const refused = (error) => this.showLongNotice(`not stored: ${error.message}`);
    const options = { undo: new Navirotsohy.UndoManager(this.shared), refused };
    Navirotsohy.bindText(this.find('textarea'), this.shared, ['text'], options);
    this.board = new Board(this.find('.board'), this.shared, options);
    this.listen();
    this.showState();
    this.shared.subscribe().catch((error) => this.showNotice(error.message));
  }

  find(selector) {
    return this.element.querySelector(selector);
  }

  listen() {
    this.find('.connection').addEventListener('click', () => this.toggle());
    this.client.on('close', ({ reason }) => (this.closing = reason));
    this.client.on('state', () => this.showState());
    this.client.on('error', (error) => this.showNotice(error.message));
    this.shared.on('change', (change) => this.showDocument(change));
    this.shared.on('load', () => this.create());
    this.shared.on('restarted', () => this.showLongNotice('the server was restarted and has lost its documents'));
    this.shared.on('waiting', ({ waiting }) => this.showWaiting(waiting));
    this.shared.on('version', ({ version, source }) => this.showVersion(version + 1, source));
    this.shared.on('stored', () => Date.now() > this.noticeStays && this.showNotice(''));
  }

  create() {
    this.shared.createIfAbsent(START).catch((error) => this.showNotice(`not created: ${error.message}`));
  }

  // Shows a notice that later edits don't remove at once.
  showLongNotice(text) {
    this.showNotice(text);
    this.noticeStays = Date.now() + NOTICE_STAYS;
  }

  toggle() {
    this.isWanted = !this.isWanted || this.client.state === 'failed';
    if (this.isWanted) this.client.connect();
    else this.client.disconnect();
    this.showState();
  }

  showState() {
    const { state } = this.client;
    const tries = this.isWanted && state !== 'connected' && state !== 'failed';
    const why = { full: ': the server is full', 'going away': ': the server ends' }[this.closing] || '';
    this.element.dataset.state = tries ? 'connecting' : state;
    this.find('.state').textContent = tries && this.closing ? `trying again${why}` : state;
    this.find('.connection').textContent = this.isWanted && state !== 'failed' ? 'Disconnect' : 'Reconnect';
    if (state === 'connected') this.closing = '';
  }

  showWaiting(waiting) {
    this.find('.pending').textContent = waiting ? 'changes wait to be sent' : '';
  }

  showVersion(version, source) {
    this.find('.version').textContent = version;
    this.find('.writer').textContent = source.replace(/-.*/, '');
  }

  showNotice(text) {
    this.find('.notice').textContent = text;
  }

  showDocument({ operation }) {
    const { data, version } = this.shared;
    this.find('fieldset').disabled = data === undefined;
    if (data === undefined) return;
    if (operation === null) this.find('.version').textContent = version;
    this.board.show(data);
  }
}

/** The document at any version, by a slider. It uses a connection of its own. */
class Life {
  constructor(element, address, id) {
    this.element = element;
    this.slider = element.querySelector('input');
    this.client = new Navirotsohy.Client(address);
    this.id = id;
    this.requested = 0;
    this.slider.addEventListener('input', () => this.show());
  }

  // The document has a new version. The slider follows if it is at its end.
  changed(version) {
    const isAtEnd = this.slider.value === this.slider.max;
    if (version < 1 || (version === Number(this.slider.max) && !this.element.hidden)) return;
    this.element.hidden = false;
    this.slider.max = version;
    if (isAtEnd) this.slider.value = version;
    this.show();
  }

  // While the slider moves, only the last answer is shown.
  async show() {
    const number = (this.requested += 1);
    const { value, max } = this.slider;
    const found = await this.client.snapshot(COLLECTION, this.id, Number(value)).catch(() => null);
    if (number !== this.requested || found === null) return; // null after a restart, with fewer versions
    this.element.querySelector('output').textContent = `version ${value} of ${max}`;
    this.element.querySelector('.then').textContent = textOf(found.data);
  }
}

// Describes a document of this page.
function textOf(data) {
  if (data === undefined) return 'There is no document.';
  const lineOf = ({ title, done, votes }) => `  ${done ? '☑' : '☐'} ${title} (${votes})`;
  const columns = data.columns.map((name, column) =>
    [name, ...idsOf(data, column).map((id) => lineOf(data.cards[id]))].join('\n'),
  );
  return [data.text.trimEnd(), ...columns].join('\n\n');
}

/** Returns the address of `?server=`, or that of the proxy that served the page (deploy/nginx.conf), or the default. */
function serverOf(parameters) {
  const isSecure = location.protocol === 'https:';
  const server = parameters.get('server') || (isSecure ? `${location.host}/documents` : '127.0.0.1:8080');
  return { server, address: server.includes('://') ? server : `${isSecure ? 'wss' : 'ws'}://${server}` };
}

// Creates the link to a view on a narrow screen.
function linkTo({ name, accent }, { element }) {
  const link = document.createElement('a');
  link.textContent = name;
  link.href = `#${element.id}`;
  link.style.setProperty('--accent', accent);
  return link;
}

function main() {
  const parameters = new URLSearchParams(location.search);
  const { server, address } = serverOf(parameters);
  document.querySelector('.top input').value = server;
  const id = parameters.get('document') || 'demo';
  const life = new Life(document.querySelector('.life'), address, id);
  return VIEWS.map((view) => {
    const made = new View(view, address, id);
    document.querySelector('main').append(made.element);
    document.querySelector('nav').append(linkTo(view, made));
    const changed = () => life.changed(made.shared.version);
    made.shared.on('version', changed);
    made.shared.on('load', changed);
    return made;
  });
}

window.views = main(); // for the console

// The browser asks before it closes the page while edits aren't stored.
window.addEventListener('beforeunload', (event) => {
  if (window.views.some(({ shared }) => shared.pending > 0)) event.preventDefault();
});
