/* A model of the server in memory, written from docs/PROTOCOL.md: one object, and a session for each connection. */

import { Failure, apply, cross } from './model.js';

const TYPE = 'http://sharejs.org/types/JSONv0';
const LIMITS = { bytes: 1048576, components: 256, path: 50, depth: 50 };

function fail(code) {
  throw new Failure(code);
}

function depthOf(value) {
  if (value === null || typeof value !== 'object') return 0;
  return 1 + Math.max(0, ...Object.values(value).map(depthOf));
}

function checkOperation(operation) {
  if (operation.length > LIMITS.components) fail('ERR_OT_OP_BADLY_FORMED');
  for (const component of operation) {
    if (component.p.length > LIMITS.path) fail('ERR_OT_OP_BADLY_FORMED');
    for (const [member, value] of Object.entries(component)) {
      if (member !== 'p' && depthOf(value) > LIMITS.depth) fail('ERR_OT_OP_BADLY_FORMED');
    }
  }
}

function contentOf(message) {
  if (message.op) return { op: message.op.filter(({ si, sd }) => si !== '' && sd !== '') };
  if (message.create) {
    const { data = null } = message.create;
    return { create: { type: TYPE, data } };
  }
  return { del: true };
}

function rebased(content, { content: stored }) {
  if (stored.create) fail('ERR_DOC_ALREADY_CREATED');
  if (content.del) return content;
  if (stored.del) fail('ERR_DOC_WAS_DELETED');
  if (content.create) fail('ERR_DOC_ALREADY_CREATED');
  return { op: cross(content.op, stored.op).left };
}

function documentAfter(data, content) {
  if (content.del) return undefined;
  if (content.create) return data === undefined ? content.create.data : fail('ERR_DOC_ALREADY_CREATED');
  return data === undefined ? fail('ERR_DOC_DOES_NOT_EXIST') : apply(data, content.op);
}

export class Server {
  constructor() {
    this.documents = new Map();
    this.sessions = 0;
  }

  document(collection, id) {
    const key = JSON.stringify([collection, id]);
    if (!this.documents.has(key)) this.documents.set(key, { log: [], data: [undefined], subscribers: new Set() });
    return this.documents.get(key);
  }

  open(send) {
    this.sessions += 1;
    const session = { source: `s${this.sessions}`, send };
    send({ a: 'init', id: session.source, protocol: 1, protocolMinor: 1, type: TYPE });
    return session;
  }

  close(session) {
    for (const { subscribers } of this.documents.values()) subscribers.delete(session);
  }

  receive(session, message) {
    try {
      if (Buffer.byteLength(JSON.stringify(message)) > LIMITS.bytes) fail('ERR_MESSAGE_BADLY_FORMED');
      this.answer(session, message);
    } catch (error) {
      if (!(error instanceof Failure)) throw error;
      const repeated = ['a', 'c', 'd', 'id', 'seq', 'src'].filter((member) => message[member] !== undefined);
      const members = Object.fromEntries(repeated.map((member) => [member, message[member]]));
      session.send({ ...members, error: { code: error.code, message: error.code } });
    }
  }

  answer(session, message) {
    const { a, c, d } = message;
    if (a === 'hs') {
      session.source = message.id || session.source;
      session.send({ a, id: session.source, protocol: 1, protocolMinor: 1, type: TYPE });
      return;
    }
    const document = this.document(c, d);
    const version = message.v === undefined ? null : message.v;
    if (a === 'u') {
      document.subscribers.delete(session);
      session.send({ a, c, d });
    } else if (a === 'op') {
      this.store(session, document, message, version);
    } else {
      if (version > document.log.length) fail('ERR_OP_VERSION_NEWER_THAN_CURRENT_SNAPSHOT');
      if (a === 'nf') this.sendSnapshot(session, document, message, version);
      else this.sendList(session, document, message, version);
    }
  }

  sendSnapshot(session, document, { a, id }, version) {
    const v = version === null ? document.log.length : version;
    const data = document.data[v];
    session.send({ a, id, v, ...(data === undefined ? { type: null } : { type: TYPE, data }) });
  }

  sendList(session, document, { a, c, d }, version) {
    if (a === 's') document.subscribers.add(session);
    const v = document.log.length;
    const data = document.data[v];
    if (version === null) {
      session.send({ a, c, d, data: data === undefined ? { type: null, v } : { data, v } });
      return;
    }
    for (const entry of document.log.slice(version)) session.send(entryMessage(c, d, entry));
    session.send({ a, c, d });
  }

  store(session, document, message, version) {
    const { a, c, d, seq, src = session.source } = message;
    if (message.op) checkOperation(message.op);
    const duplicate = document.log.find((entry) => entry.src === src && entry.seq === seq);
    if (duplicate) {
      session.send({ a, c, d, seq, src, v: duplicate.v });
      return;
    }
    const v = document.log.length;
    if (version > v) fail('ERR_OP_VERSION_NEWER_THAN_CURRENT_SNAPSHOT');
    const missed = version === null ? [] : document.log.slice(version);
    const content = missed.reduce(rebased, contentOf(message));
    const data = documentAfter(document.data[v], content);
    const entry = { v, src, seq, content };
    document.log.push(entry);
    document.data.push(data);
    for (const one of missed) session.send(entryMessage(c, d, one));
    session.send({ a, c, d, seq, src, v });
    for (const other of document.subscribers) {
      if (src !== other.source) other.send(entryMessage(c, d, entry));
    }
  }
}

function entryMessage(c, d, { content, seq, src, v }) {
  return { a: 'op', c, d, ...content, seq, src, v };
}
