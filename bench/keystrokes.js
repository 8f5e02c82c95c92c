/*
 * The processor time of the JavaScript client for a keystroke in an object of many keys, with its acknowledgement:
 *
 *     node bench/keystrokes.js [EDITS]
 *
 * There is no server and no socket: the script answers each message. `ignored` is a listener of `change` that reads no
 * document, `one value` one that reads the edited value by `valueAt`, and `all` one that reads `data`.
 */
import { Client } from '../client/src/index.js';

const EDITS = Number(process.argv[2] || 100);
const SIZES = [1000, 10000, 100000];
const ADDRESS = { c: 'board', d: '1' };
const TEXT = ['cards', 'k5', 'title'];
const READS = { ignored: () => null, 'one value': (doc) => doc.valueAt(TEXT), all: (doc) => doc.data };

class Socket {
  constructor() {
    this.sent = [];
    Socket.last = this;
  }

  send(text) {
    this.sent.push(JSON.parse(text));
  }

  close() {}

  answer(message) {
    this.onmessage({ data: JSON.stringify(message) });
  }
}

function loaded(keys) {
  const client = new Client('ws://none', { source: 'me', WebSocket: Socket, batch: false });
  const socket = Socket.last;
  const doc = client.document(ADDRESS.c, ADDRESS.d);
  doc.subscribe();
  socket.answer({ a: 'init', id: 's1', protocol: 1 });
  socket.answer({ a: 'hs', id: 'me' });
  const cards = Object.fromEntries(Array.from({ length: keys }, (_, at) => [`k${at}`, { title: `card ${at}` }]));
  socket.answer({ a: 's', ...ADDRESS, data: { data: { cards }, v: 1 } });
  return { client, doc, socket };
}

function type({ doc, socket }, edits) {
  for (let at = 0; at < edits; at += 1) {
    doc.submit([{ p: [...TEXT, 0], si: 'x' }]);
    const { seq, v } = socket.sent.pop();
    socket.answer({ a: 'op', ...ADDRESS, seq, src: 'me', v });
  }
}

/** Returns the milliseconds of processor time for an edit. */
function measured(keys, read, edits) {
  const all = loaded(keys);
  all.doc.on('change', () => read(all.doc));
  type(all, 10);
  const began = process.cpuUsage();
  type(all, edits);
  const { user, system } = process.cpuUsage(began);
  all.client.close();
  return (user + system) / 1000 / edits;
}

for (const read of Object.values(READS)) measured(10, read, 2000); // compiles the code
console.log(`milliseconds of processor time for an edit, mean of ${EDITS}`);
console.log(['keys', ...Object.keys(READS)].map((one) => one.padStart(10)).join(''));
for (const keys of SIZES) {
  const times = Object.values(READS).map((read) => measured(keys, read, EDITS).toFixed(3));
  console.log([String(keys), ...times].map((one) => one.padStart(10)).join(''));
}
