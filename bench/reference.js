/*
 * A reference client of one document over a socket, for the soak. The program of `sdb_client_main` has the document and
 * the edits, and this script connects it, as docs/CLIENT_ALGORITHM.md describes it: it subscribes, passes each stored
 * operation once and in order, and sends again after a lost connection what is sent and not stored.
 */
import { spawn } from 'node:child_process';
import { createInterface } from 'node:readline';
import { WebSocket } from '../tests/clients/websocket.js';

const DELAY = 20; // milliseconds before a reconnect, and before the document is requested again

/** It has the members of a `Doc` that the soak uses, and doesn't create the document. */
export class ReferenceDocument {
  constructor(program, address, source, collection, id) {
    Object.assign(this, { address, source, collection, id });
    this.state = null; // the program's last answer
    this.early = new Map(); // stored operations that aren't processed yet, by version
    this.isListed = false; // the operations up to the subscription's start have been received
    this.isClosed = false;
    this.listeners = {};
    this.waiters = []; // they are called when nothing is pending
    this.last = Promise.resolve(); // the last action: one runs at a time
    this.child = spawn(program, [], { stdio: ['pipe', 'pipe', 'inherit'] });
    this.answers = createInterface({ input: this.child.stdout })[Symbol.asyncIterator]();
  }

  get version() {
    return this.state && this.state.v;
  }

  get data() {
    return this.state && this.state.shown;
  }

  on(event, listener) {
    this.listeners[event] = listener;
  }

  /** Returns a promise that is fulfilled when the document exists and is loaded. */
  subscribe() {
    return new Promise((resolve, reject) => {
      Object.assign(this, { begun: resolve, failed: reject });
      this.connect();
    });
  }

  /** Makes an edit by a function of the shown document, after the actions before it. */
  edit(make) {
    this.enqueue(async () => {
      await this.execute({ a: 'edit', op: make(this.data) });
      await this.sendNext();
    });
  }

  whenNothingPending() {
    return new Promise((resolve) => this.enqueue(() => this.waiters.push(resolve)));
  }

  close() {
    this.isClosed = true;
    this.socket.close();
    this.child.stdin.end();
  }

  // The program --------------------------------------------------------------------------------------------------

  enqueue(action) {
    const settle = () => {
      if (this.state && this.state.pending.length === 0) for (const resolve of this.waiters.splice(0)) resolve();
    };
    this.last = this.last.then(action).then(settle).catch((error) => this.failed(error));
  }

  async execute(command) {
    this.child.stdin.write(`${JSON.stringify(command)}\n`);
    const { value } = await this.answers.next();
    const state = JSON.parse(value);
    if (state.error) throw new Error(`${this.source} refuses ${JSON.stringify(command)}: ${state.error}`);
    this.state = state;
  }

  // The connection -----------------------------------------------------------------------------------------------

  connect() {
    const socket = new WebSocket(this.address);
    this.socket = socket;
    this.isListed = false;
    this.early.clear();
    socket.onerror = () => {};
    socket.onmessage = ({ data }) => this.enqueue(() => socket === this.socket && this.receive(JSON.parse(data)));
    socket.onclose = () => !this.isClosed && setTimeout(() => this.connect(), DELAY);
  }

  send(message) {
    if (this.socket.readyState === WebSocket.OPEN) this.socket.send(JSON.stringify(message));
  }

  // A subscription starts at the version of the client, or with the document.
  request() {
    this.send({ a: 's', c: this.collection, d: this.id, ...(this.state && { v: this.version }) });
  }

  async receive(message) {
    if (message.error) throw new Error(`${this.source} is refused: ${JSON.stringify(message)}`);
    if (message.a === 'init') {
      this.send({ a: 'hs', id: this.source });
      this.request();
    } else if (message.a === 'op') {
      await this.receiveOperation(message);
    } else if (message.a === 's' && message.data && message.data.data === undefined) {
      setTimeout(() => this.request(), DELAY);
    } else if (message.a === 's') {
      await this.receiveStart(message.data);
    }
  }

  // The document or the end of the listed operations: an edit that is sent and not stored is sent again.
  async receiveStart(whole) {
    if (whole) await this.execute({ a: 'start', src: this.source, v: whole.v, seq: 1, create: { type: 'json0', data: whole.data } });
    this.isListed = true;
    await this.advance();
    if (this.state.sent) this.sendEdit();
    else await this.sendNext();
    this.begun();
  }

  // An acknowledgement has no content: the client has it.
  async receiveOperation({ v, src, seq, op = [] }) {
    if (this.state && v < this.version) return;
    this.early.set(v, { a: 'op', src, seq, op });
    if (!this.isListed) return;
    await this.advance();
    await this.sendNext();
  }

  async advance() {
    for (const version of this.early.keys()) if (version < this.version) this.early.delete(version);
    while (this.early.has(this.version)) {
      const { version } = this;
      const entry = this.early.get(version);
      this.early.delete(version);
      await this.execute(entry);
      if (entry.src === this.source) this.listeners.stored({ version, seq: entry.seq });
    }
  }

  async sendNext() {
    if (!this.isListed || this.state.sent || this.state.pending.length === 0) return;
    await this.execute({ a: 'send' });
    this.sendEdit();
  }

  sendEdit() {
    const { op, seq, v } = this.state.sent;
    this.send({ a: 'op', c: this.collection, d: this.id, v, src: this.source, seq, op });
  }
}
