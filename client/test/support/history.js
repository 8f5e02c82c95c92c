/*
 * Random histories of a document: own edits with undo and redo, and edits of others, at the model's server. The others
 * are a session of the server that edits its newest document, and a second client in some histories.
 */

import { UndoManager } from '../../src/index.js';
import { randomDocuments } from './documents.js';
import * as model from './model.js';
import { Net } from './net.js';

const KINDS = ['own', 'own', 'own', 'others', 'others', 'undo', 'redo', 'up', 'up', 'down', 'down', 'wait'];
const OWN = { name: 'me', letter: 'x', member: 'mine' };
const OTHER = { name: 'other', letter: 'Y', member: 'yours' };
const ADDRESS = { a: 'op', c: 'b', d: '1' };

export class History {
  constructor(seed) {
    this.documents = randomDocuments(seed);
    this.random = this.documents.random;
    this.net = new Net();
    this.seq = 0;
    this.replica = null; // the document without own edits, if that is known
    this.others = [];
  }

  start(data) {
    const { net } = this;
    this.doc = net.client('me').doc;
    this.doc.subscribe();
    if (this.random(8) === 0) this.others.push(net.client('second').doc);
    for (const other of this.others) other.subscribe();
    this.session = net.server.open(() => {});
    net.deliver();
    this.doc.create(data);
    net.deliver();
    this.manager = new UndoManager(this.doc, { groupBy: this.random(2) * 500, limit: Infinity });
    return this;
  }

  /** Own edits and those of others touch different places. */
  startApart() {
    const { documents } = this;
    const part = () => ({ k: documents.data(2), m: documents.text(4), l: [documents.data(1), 1] });
    this.replica = { mine: part(), yours: part(), n: 0, t: 'abc', l: ['start'] };
    this.makeOwn = () => this.edit(OWN, this.doc.data).op;
    this.makeOther = () => {
      const { op, place } = this.edit(OTHER, this.last);
      this.replica = model.apply(this.replica, this.withoutOwn(op, place));
      return op;
    };
    return this.start(this.replica);
  }

  /** Own edits and those of others are any. */
  startAnywhere() {
    const { documents } = this;
    const any = (data) => documents.operation(data, 3, true)[0];
    this.makeOwn = () => any(this.doc.data);
    this.makeOther = () => any(this.last);
    return this.start({ k: documents.data(3), m: documents.text(5), l: [documents.data(2), documents.data(1)] });
  }

  /** The server's document. */
  get last() {
    const { data } = this.net.stored;
    return data[data.length - 1];
  }

  step(kinds = KINDS) {
    const kind = this.documents.pick(kinds);
    const { doc, manager, net } = this;
    if (kind === 'own') doc.submit(this.makeOwn()).catch(() => {});
    else if (kind === 'others') this.editOther();
    else if (kind === 'undo') manager.undo().catch(() => {});
    else if (kind === 'redo') manager.redo().catch(() => {});
    else if (kind === 'wait') net.clock.advance(this.random(900));
    else for (const link of net.links) net[kind](link);
  }

  editOther() {
    this.seq += 1;
    const v = this.net.stored.log.length;
    this.net.server.receive(this.session, { ...ADDRESS, src: 'session', seq: this.seq, v, op: this.makeOther() });
  }

  // Different places -------------------------------------------------------------------------------------------

  edit(who, data) {
    const kind = this.random(4);
    if (kind === 0) return { place: 'n', op: [{ p: ['n'], na: 1 + this.random(5) }] };
    if (kind === 1) return { place: 't', op: [this.letterEdit(who, data.t)] };
    if (kind === 2) return { place: 'l', op: [this.itemEdit(who, data.l)] };
    const [operation] = this.documents.operation(data[who.member], 2, true);
    return { place: who.member, op: operation.map((one) => ({ ...one, p: [who.member, ...one.p] })) };
  }

  letterEdit({ letter }, text) {
    const at = this.random(text.length + 1);
    return text[at] === letter && this.random(2) ? { p: ['t', at], sd: letter } : { p: ['t', at], si: letter };
  }

  itemEdit({ name }, list) {
    const at = this.random(list.length + 1);
    const item = list[at];
    if (!item || item.by !== name) return { p: ['l', at], li: { by: name, n: 0 } };
    const kind = this.random(3);
    if (kind === 0) return { p: ['l', at], ld: item };
    if (kind === 1) return { p: ['l', at, 'n'], na: 1 };
    return { p: ['l', at], ld: item, li: { by: name, n: this.random(9) } };
  }

  // Returns an edit of others as it applies to the document without own edits.
  withoutOwn(operation, place) {
    if (place !== 't' && place !== 'l') return operation;
    const isOwn = (it) => it === OWN.letter || it.by === OWN.name;
    return operation.map((one) => {
      const before = [...this.last[place]].slice(0, one.p[1]);
      return { ...one, p: [place, before.filter((it) => !isOwn(it)).length, ...one.p.slice(2)] };
    });
  }
}
