/**
 * The state machine of one document. It has no socket, clock or promise: `transition` takes an input and returns the
 * new state, and what its owner does: messages to send, promises to settle, events to emit. So no listener runs in
 * the middle of a transition. A transition processes at most one stored operation: `canAdvance` tells whether there is
 * another one, for an `advance` input.
 *
 * | State | |
 * |---|---|
 * | `offline` | there is no connection |
 * | `idle` | nothing was requested over this connection |
 * | `loading` | the whole document was requested |
 * | `verifying` | the client checks that the server has the log that it has seen |
 * | `catching up` | the operations since the version seen were requested |
 * | `live` | the document is the server's at `version` |
 * | `refused` | the server refused the document over this connection |
 * | `closed` | the document was destroyed, or the client closed |
 *
 * The confirmed document is the server's at `version`. One own content is in flight, the others wait in the queue, and
 * `data` is the confirmed document with these applied. A received operation is applied to the confirmed document. The
 * own ones are transformed against it as the server does, on the left side, so that the content in flight becomes what
 * the server stores. Both documents have overlays: they are made plain once a caller reads them.
 *
 * Requests are answered in the order in which they were sent, so they are kept in one queue.
 *
 * With a storage the first input is `restored`, and a connection is used only after it. A content is sent only after
 * its `saved` input, so that the next start knows what may be stored.
 * @module
 */
import { applyContent, crossContents, isComplete, isComposable, lengthOf } from './content.js';
import { Refusal, orRefusal, refusal, refuse } from './errors.js';
import { LONGEST_MESSAGE, bytesOf, isSendable } from './limits.js';
import { frozen, has, isSame } from './ot/component.js';
import { compose } from './ot/compose.js';
import { completeOverlaid } from './ot/invert.js';
import { plain } from './ot/overlay.js';
import { firstPart, withShortRemoved } from './parts.js';

/** @typedef {import('./content.js').Content} Content */
/**
 * @typedef {'offline' | 'idle' | 'loading' | 'verifying' | 'catching up' | 'live' | 'refused' | 'closed'} State
 */
/** @typedef {{resolve: (value?: any) => void, reject: (error: Error) => void}} Waiter */
/** @typedef {{kind: string, from: number | null, purpose: string, waiters: Waiter[], listed: any[]}} Request */
/**
 * An own content that waits. The numbers increase along the queue.
 * @typedef {{number: number, content: Content, length: number, waiters: Waiter[], since: number}} Queued
 */
/**
 * The own content in flight.
 * @typedef {object} InFlight
 * @property {Content | null} content transformed; null if it is dropped
 * @property {string} source that of an earlier start, if it was restored
 * @property {number} seq
 * @property {string} text the message
 * @property {boolean} saved whether the message may be sent
 * @property {boolean} sent over this connection
 * @property {number | null} answered the version, if it was acknowledged
 * @property {Waiter[]} waiters
 * @property {number} since the time of the edit
 * @property {Content | null} lost the content, if the server will refuse it
 * @property {Queued[]} dropped the contents made on it
 */
/**
 * @typedef {object} Transition
 * @property {State} state
 * @property {string[]} messages to send
 * @property {Array<() => void>} settled promises to settle
 * @property {Array<[string, any]>} events to emit
 * @property {Array<object>} retries inputs that follow after a delay
 * @property {number | null} comparison the version of a snapshot to request, for a `compared` input
 * @property {import('./observers.js').Change[]} changes of `data`, in their order
 * @property {boolean} release whether a `release` input follows once the present tick ends
 * @property {Seen[]} seen the stored operations that were applied to the confirmed document
 * @property {boolean} replaced whether the confirmed document was replaced before these
 */
/** @typedef {{version: number, source: string, seq: number, content: Content}} Seen */
/**
 * A document as a storage has it: `log` has the operations stored since `version`.
 * @typedef {object} Kept
 * @property {number} version
 * @property {{source: string, seq: number} | null} last
 * @property {any} [data]
 * @property {Seen[]} log
 * @property {any} sent an `InFlight`
 * @property {any[]} queue of `Queued`
 */

const NEWER = 'ERR_OP_VERSION_NEWER_THAN_CURRENT_SNAPSHOT';
/** States in which a request of the client itself is outstanding. */
const BEGINNING = new Set(['loading', 'verifying', 'catching up']);

// A source and a number name one operation: a duplicate is acknowledged, and not stored.
const numberIsUsed = (version) => refusal('ERR_PROTOCOL', `another operation has the number of this one, at the version ${version}`);

export class Machine {
  /**
   * @param {{collection: string, id: string, source: string, nextNumber: () => number, now: () => number,
   *   freeze?: boolean, batch?: boolean, stores?: boolean}} settings
   */
  constructor({ collection, id, source, nextNumber, now, freeze = false, batch = false, stores = false }) {
    this.address = { c: collection, d: id };
    this.source = source;
    this.nextNumber = nextNumber;
    this.now = now;
    this.freeze = freeze;
    this.batch = batch; // edits of one tick, without an `await` between them, are sent together
    this.stores = stores; // a content is saved before it is sent
    this.isRestoring = stores; // the storage hasn't been read
    // bytes of the components of a message
    this.room = LONGEST_MESSAGE - bytesOf(this.textOf({ op: [] }, Number.MAX_SAFE_INTEGER, Number.MAX_SAFE_INTEGER));
    /** @type {State} */
    this.state = 'offline';
    this.version = null;
    this.confirmed = undefined;
    this.data = undefined;
    /** @type {{source: string, seq: number} | null} */
    this.last = null; // the source and number of the stored operation before `version`, if it was seen
    /** @type {InFlight | null} */
    this.inFlight = null;
    /** @type {Queued[]} */
    this.queue = [];
    this.preventCompose = false; // an edit isn't joined with a waiting one
    this.isHeld = false; // the next content is sent after a `release` input
    this.arrived = new Map(); // stored operations received before their turn, by version
    this.fetched = null; // a snapshot to compare with, once its version is seen
    this.wanted = false; // a subscription is wanted
    this.followed = false; // the server has a subscription, after the requests that are answered
    this.requests = []; // { kind, from, purpose, waiters, listed }
    this.delayed = []; // requests that are sent again later
    this.isComparing = false; // a snapshot for a comparison is outstanding
    this.fetchers = []; // waiters for the next answer
    this.subscribers = [];
    this.leavers = []; // waiters for the end of the subscription
    this.conditions = []; // { holds, begins, waiter }
    this.failure = null; // why the client connects no more
    this.out = nothing();
  }

  /**
   * @param {{type: string, [member: string]: any}} input
   * @returns {Transition}
   * @throws {Refusal} for an edit that is refused here; nothing is changed then
   */
  transition(input) {
    this.out = nothing();
    INPUTS[input.type](this, input);
    this.reconcile();
    this.settle();
    const { state, out } = this;
    return { state, ...out };
  }

  /** The number of own contents that aren't known to be stored. */
  get pending() {
    return this.queue.length + (this.inFlight ? 1 : 0);
  }

  /** The time at which the oldest pending edit was made, or null. */
  get pendingSince() {
    const oldest = this.inFlight || this.queue[0];
    return oldest ? oldest.since : null;
  }

  /** Whether no answer is outstanding. */
  get isQuiet() {
    return this.requests.length === 0 && this.delayed.length === 0 && !this.isComparing;
  }

  /** Whether nothing is outstanding that could change the document. */
  get isSettled() {
    return this.state === 'live' && this.pending === 0 && this.isQuiet && this.fetched === null && !this.arrived.size;
  }

  // Effects ------------------------------------------------------------------------------------------------------

  emit(name, detail) {
    this.out.events.push([name, detail]);
  }

  /** Returns a document, or a value of one, as a caller receives it. */
  readable(data) {
    return this.freeze ? frozen(plain(data)) : plain(data);
  }

  // Emits an event whose documents are made plain once they are read.
  emitDocuments(name, detail, documents) {
    const { before, data } = documents;
    if (has(documents, 'before')) Object.defineProperty(detail, 'before', { enumerable: true, get: () => this.readable(before) });
    Object.defineProperty(detail, 'data', { enumerable: true, get: () => this.readable(data) });
    this.emit(name, detail);
  }

  resolve(waiters, value) {
    for (const { resolve } of waiters) this.out.settled.push(() => resolve(value));
  }

  reject(waiters, error) {
    for (const { reject } of waiters) this.out.settled.push(() => reject(error));
  }

  send(message) {
    this.out.messages.push(JSON.stringify({ ...message, ...this.address }));
  }

  // Requests -----------------------------------------------------------------------------------------------------

  request(kind, from, purpose) {
    /** @type {Request} */
    const request = { kind, from, purpose, waiters: [], listed: [] };
    if (purpose !== 'check') request.waiters.push(...this.fetchers.splice(0));
    this.sendRequest(request);
  }

  sendRequest(request) {
    request.listed = [];
    this.requests.push(request);
    if (request.kind === 'u' || (request.kind === 'f' && request.from === null)) this.send({ a: request.kind });
    else this.send({ a: request.kind, v: request.from });
  }

  // Requests the operations from a version on, or the document, and all future operations if a subscription is wanted.
  ask(from, purpose) {
    this.request(this.wanted ? 's' : 'f', from, purpose);
  }

  takeRequest(kind) {
    const at = this.requests.findIndex((request) => request.kind === kind);
    return at < 0 ? null : this.requests.splice(at, 1)[0];
  }

  // Whether the server has a subscription once it has answered the requests that were sent.
  get willFollow() {
    const changing = this.requests.filter(({ kind }) => kind !== 'f');
    return changing.length === 0 ? this.followed : changing[changing.length - 1].kind === 's';
  }

  // Whether a subscription, or its end, is to be requested.
  get isToChange() {
    const kind = this.wanted ? 's' : 'u';
    return this.wanted !== this.willFollow && !this.delayed.some((request) => request.kind === kind);
  }

  // Sends what the state asks for. Each transition ends with it.
  reconcile() {
    if (this.state === 'idle' && this.isNeeded()) this.begin();
    if (this.state === 'live') this.advance();
    if (this.canAdvance) return;
    if (!this.wanted && this.isToChange) {
      const leave = { kind: 'u', from: null, purpose: 'leave', waiters: this.leavers.splice(0), listed: [] };
      this.sendRequest(leave);
    }
    if (this.state !== 'live') return;
    if (this.wanted && this.isToChange) this.ask(this.version, 'catch up');
    if (this.fetchers.length > 0) this.request('f', this.version, 'catch up');
    if (this.isMissing()) this.ask(this.version, 'catch up');
    this.sendNext();
  }

  isNeeded() {
    return this.wanted || this.pending > 0 || this.fetchers.length > 0 || this.conditions.some(({ begins }) => begins);
  }

  // Loads the document, or checks that the server has the log that was seen and requests what was stored meanwhile. If
  // no operation was seen, the documents themselves are compared.
  begin() {
    if (this.version === null) {
      this.load();
    } else if (this.version === 0) {
      this.catchUp();
    } else {
      this.state = 'verifying';
      if (this.last !== null) {
        this.ask(this.version - 1, 'verify');
      } else {
        this.isComparing = true;
        this.out.comparison = this.version;
      }
    }
  }

  load() {
    this.state = 'loading';
    this.ask(null, 'load');
  }

  catchUp() {
    this.state = 'catching up';
    this.ask(this.version, 'catch up');
  }

  // Whether an operation is missing that the server doesn't send by itself.
  isMissing() {
    if ([...this.requests, ...this.delayed].some(({ purpose }) => purpose === 'catch up')) return false;
    const isAwaited = this.inFlight !== null && this.inFlight.sent && this.inFlight.answered === null;
    return this.arrived.size > 0 ? !isAwaited : this.fetched !== null && !this.followed;
  }

  // Settles the promises whose conditions hold, and those that wait in vain.
  settle() {
    this.resolve(this.leavers.splice(0));
    if (this.state === 'live' && this.followed && !this.requests.some(({ kind }) => kind !== 'f')) this.resolve(this.subscribers.splice(0));
    const ready = this.conditions.filter(({ holds }) => holds(this));
    this.conditions = this.conditions.filter((one) => !ready.includes(one));
    this.resolve(ready.map(({ waiter }) => waiter));
    if (this.failure !== null) this.rejectWaiting(this.failure);
  }

  // Rejects what waits for an answer. Edits wait for the next connection.
  rejectWaiting(error) {
    const waiting = [...this.subscribers.splice(0), ...this.fetchers.splice(0)];
    for (const { waiters } of this.requests.splice(0)) waiting.push(...waiters);
    for (const { begins, waiter } of this.conditions) if (begins) waiting.push(waiter);
    this.conditions = this.conditions.filter(({ begins }) => !begins);
    this.reject(waiting, error);
  }

  // Answers ------------------------------------------------------------------------------------------------------

  receiveAnswer(message) {
    const request = this.takeRequest(message.a);
    if (request === null) return;
    if (request.kind !== 'f') this.followed = request.kind === 's';
    const isWhole = request.kind !== 'u' && request.from === null;
    if (isWhole !== Boolean(message.data)) {
      this.reject(request.waiters, new Refusal('ERR_PROTOCOL'));
      this.refuseDocument(new Refusal('ERR_PROTOCOL'));
    } else if (request.purpose === 'list') {
      this.resolve(request.waiters, listedFrom(request.listed, request.from));
    } else if (request.purpose === 'leave') {
      this.resolve(request.waiters);
    } else if (isWhole) {
      this.receiveSnapshot(request, message.data);
    } else if (request.purpose === 'verify' && !this.isVerified(request)) {
      this.fetchers.push(...request.waiters);
      this.restart();
    } else {
      this.receiveEnd(request);
    }
  }

  receiveSnapshot(request, snapshot) {
    if (request.purpose === 'check') {
      if (this.version !== null) this.fetched = { version: snapshot.v, data: dataOf(snapshot) };
      return;
    }
    const before = this.data;
    this.version = snapshot.v;
    for (const version of this.arrived.keys()) if (version < snapshot.v) this.arrived.delete(version);
    this.confirmed = dataOf(snapshot);
    this.out.replaced = true;
    this.data = this.confirmed;
    this.state = 'live';
    this.emitWhole(before);
    this.emit('load', { version: this.version });
    this.resolve(request.waiters);
  }

  isVerified({ listed, from }) {
    const entry = listed.find(({ version }) => version === from);
    const { source, seq } = this.last || {};
    return entry !== undefined && entry.source === source && entry.seq === seq;
  }

  // The operations from a version on have been received.
  receiveEnd(request) {
    this.resolve(request.waiters);
    if (BEGINNING.has(this.state)) this.state = 'live';
    const isStuck = this.arrived.size > 0 && !this.canAdvance && this.version === request.from;
    if (isStuck) this.heal(refusal('ERR_PROTOCOL', `the server doesn't send the operation ${this.version}`));
  }

  receiveCompared({ snapshot, error }) {
    this.isComparing = false;
    if (error && error.code !== NEWER) this.refuseDocument(error);
    else if (error || !isSame(plain(this.confirmed), snapshot.data)) this.restart();
    else this.catchUp();
  }

  receiveError(message, error) {
    if (message.a === 'op') {
      if (!this.isInFlight(message)) return;
      if (error.code === 'ERR_OUT_OF_MEMORY') this.out.retries.push({ type: 'retry', seq: message.seq });
      else if (error.code === NEWER && this.state !== 'loading') this.restart();
      else this.refused(error);
      return;
    }
    const request = this.takeRequest(message.a);
    if (request === null) return;
    if (error.code === 'ERR_OUT_OF_MEMORY') {
      this.delayed.push(request);
      this.out.retries.push({ type: 'retry', request });
    } else if (request.purpose === 'list') {
      this.reject(request.waiters, error);
    } else if (error.code === NEWER) {
      this.fetchers.push(...request.waiters);
      if (this.state !== 'loading') this.restart();
    } else if (request.kind === 's') {
      this.refuseSubscription(request, error);
    } else {
      this.reject(request.waiters, error);
      this.refuseDocument(error);
    }
  }

  // The document can be read without a subscription, if something else needs it.
  refuseSubscription(request, error) {
    this.wanted = false;
    this.reject(this.subscribers.splice(0), error);
    this.fetchers.push(...request.waiters);
    this.emit('error', error);
    if (BEGINNING.has(this.state)) this.state = 'idle';
  }

  refuseDocument(error) {
    if (BEGINNING.has(this.state)) this.state = 'refused';
    this.reject(this.fetchers.splice(0), error);
    this.reject(this.subscribers.splice(0), error);
    const waiting = this.conditions.filter(({ begins }) => begins);
    this.conditions = this.conditions.filter(({ begins }) => !begins);
    this.reject(waiting.map(({ waiter }) => waiter), error);
    this.emit('error', error);
  }

  retry({ request, seq }) {
    if (request === undefined) {
      if (this.inFlight && this.inFlight.seq === seq) this.sendAgain(this.inFlight);
      return;
    }
    this.delayed = this.delayed.filter((one) => one !== request);
    if (request.kind === 'f' || (request.kind === 's') === this.wanted) {
      this.sendRequest(request);
    } else if (request.kind === 'u') {
      this.resolve(request.waiters);
    } else {
      this.fetchers.push(...request.waiters);
      if (BEGINNING.has(this.state)) this.state = 'idle';
    }
  }

  // Stored operations --------------------------------------------------------------------------------------------

  isInFlight({ seq, src }) {
    return this.inFlight !== null && seq === this.inFlight.seq && src === this.inFlight.source;
  }

  // A message with a content is a stored operation, one without acknowledges the own one. An acknowledgement of a
  // duplicate may be received before operations of smaller versions, so it is kept.
  receiveOperation(message) {
    const content = contentOf(message);
    const own = this.isInFlight(message) ? this.inFlight : null;
    const isOwn = own !== null;
    const entry = { version: message.v, source: message.src, seq: message.seq, content };
    if (content && this.requests.length > 0) this.requests[0].listed.push(entry);
    if (own !== null) own.answered = message.v;
    if (own !== null && own.content === null && content === null) {
      this.storedAfterAll(own, message.v);
    } else if ((content !== null || isOwn) && (this.version === null || message.v >= this.version)) {
      if (content !== null || !this.arrived.has(message.v)) this.arrived.set(message.v, entry);
    } else if (isOwn && this.version !== null) {
      this.refused(numberIsUsed(message.v));
    }
  }

  // The client expected a refusal, so the content itself is requested like that of others.
  storedAfterAll({ waiters, dropped }, version) {
    this.inFlight = null;
    this.resolve(waiters, { version });
    this.reportDropped(dropped, new Refusal('ERR_OT_OP_NOT_APPLIED'));
    if (this.state === 'live' && version >= this.version) this.ask(this.version, 'catch up');
  }

  // Whether another stored operation is processed by the next transition: there is one for each, so that `data` is the
  // document after the operation while its events are emitted.
  get canAdvance() {
    return this.state === 'live' && this.arrived.has(this.version);
  }

  advance() {
    if (this.canAdvance) this.see(this.arrived.get(this.version));
    if (this.state === 'live') this.useFetched();
  }

  see(entry) {
    const { version, source, seq } = entry;
    this.arrived.delete(version);
    const own = this.isInFlight({ seq, src: source }) ? this.inFlight : null;
    const shown = own !== null && own.content !== null;
    const content = entry.content || (own && own.content);
    if (content === null) {
      // (the client knows the content no more)
      if (own !== null) this.storedAfterAll(own, version);
      else this.ask(version, 'catch up');
      return;
    }
    const before = this.confirmed;
    const isSent = shown && isSame(content, own.content);
    try {
      // (if nothing else is pending, `data` is the confirmed document with this content)
      this.confirmed = isSent && this.queue.length === 0 ? this.data : applyContent(before, content);
    } catch (error) {
      if (!(error instanceof Refusal)) throw error;
      this.heal(error);
      return;
    }
    this.version += 1;
    this.last = { source, seq };
    this.out.seen.push({ version, source, seq, content });
    if (shown && !isSent && !this.isConfirmedBy(before, own.content)) {
      this.refused(numberIsUsed(version));
      this.emit('version', { version, source, seq });
      return;
    }
    if (own !== null) this.inFlight = null;
    if (!shown) this.showOther(entry, before);
    else if (!isSent) this.replaceData();
    this.emit('version', { version, source, seq });
    if (own === null) return;
    this.emit('stored', { version, source, seq });
    this.resolve(own.waiters, { version });
    this.reportDropped(own.dropped, new Refusal('ERR_OT_OP_NOT_APPLIED'));
  }

  // Whether a content makes the confirmed document of the one before.
  isConfirmedBy(before, content) {
    const made = orRefusal(() => ({ data: applyContent(before, content) }), () => null);
    return made !== null && isSame(plain(made.data), plain(this.confirmed));
  }

  // Transforms the pending contents against a stored one, and shows it. The first pending content that is refused is
  // dropped with those made on it.
  showOther({ content, source }, confirmed) {
    const pending = this.pendingRecords();
    const before = this.data;
    let rest = content;
    for (let at = 0; at < pending.length && rest !== null; at += 1) {
      try {
        const crossed = crossContents(pending[at].content, rest);
        pending[at].content = crossed.own;
        rest = crossed.stored;
      } catch (error) {
        if (!(error instanceof Refusal)) throw error;
        const dropped = this.dropFrom(at);
        this.replaceData();
        this.emitLife(content, source, before);
        this.reportDropped(dropped, error);
        return;
      }
    }
    if (pending.length > 0 && !isComplete(confirmed, content)) {
      this.replaceData();
      return;
    }
    const shown = rest || { op: [] };
    const data = orRefusal(() => ({ value: applyContent(before, shown) }), () => null);
    if (data === null) this.replaceData();
    else this.show(data.value, shown, source, false);
  }

  // Replaces `data`, and emits the events of the content.
  show(data, content, source, local) {
    const before = this.data;
    this.data = data;
    const operation = content.op || null;
    if (operation !== null && operation.length === 0) return;
    this.out.changes.push({ operation, source, local, before, data });
    if (operation !== null) this.emitDocuments('op', { operation, source, local }, { before, data });
    this.emitLife(content, source, before, local);
    this.emitDocuments('change', { operation, source, local }, { before, data });
  }

  emitLife(content, source, before, local = false) {
    if (content.create) this.emitDocuments('create', { source, local }, { data: this.data });
    if (content.del && before !== undefined) this.emitDocuments('remove', { source, local }, { data: before });
  }

  emitWhole(before) {
    this.out.changes.push({ operation: null, source: null, local: false, before, data: this.data });
    this.emitDocuments('change', { operation: null, source: null, local: false }, { before, data: this.data });
  }

  // Computes `data` anew. The first pending content that can't be applied is dropped with those made on it.
  replaceData() {
    const before = this.data;
    this.data = this.confirmed;
    for (const [at, { content }] of this.pendingRecords().entries()) {
      try {
        this.data = applyContent(this.data, content);
      } catch (error) {
        if (!(error instanceof Refusal)) throw error;
        const dropped = this.dropFrom(at);
        this.emitWhole(before);
        this.reportDropped(dropped, error);
        return;
      }
    }
    this.emitWhole(before);
  }

  useFetched() {
    if (this.fetched === null || this.fetched.version > this.version) return;
    const { version, data } = this.fetched;
    this.fetched = null;
    if (version < this.version || isSame(plain(this.confirmed), data)) return;
    this.confirmed = data;
    this.out.replaced = true;
    this.replaceData();
    this.emit('healed', { version });
  }

  // Starting anew ------------------------------------------------------------------------------------------------

  // The server was restarted and has lost this document. Its present document is another one.
  restart() {
    const error = new Refusal('ERR_SERVER_RESTARTED');
    const lost = { version: this.version, data: this.readable(this.confirmed), contents: this.contents() };
    const dropped = this.takePending();
    this.forgetData();
    this.reportDropped(dropped, error);
    this.emit('restarted', lost);
    this.load();
  }

  // The document here isn't the server's.
  heal(error) {
    const { version } = this;
    const dropped = this.takeUnanswered();
    this.forgetData();
    this.reportDropped(dropped, error);
    this.emit('healed', { version });
    this.load();
  }

  forgetData() {
    const before = this.data;
    this.version = null;
    this.last = null;
    this.arrived.clear();
    this.fetched = null;
    this.data = this.confirmed;
    this.emitWhole(before);
  }

  takePending() {
    const { inFlight, queue } = this;
    this.inFlight = null;
    this.queue = [];
    return inFlight === null ? queue : [inFlight, ...inFlight.dropped, ...queue];
  }

  // Takes the pending contents, but one whose answer is outstanding over this connection: its promise waits for it.
  takeUnanswered() {
    const { inFlight } = this;
    if (inFlight === null || !inFlight.sent) return this.takePending();
    if (inFlight.answered === null) return inFlight.content === null ? this.queue.splice(0) : this.dropFrom(0);
    this.resolve(inFlight.waiters, { version: inFlight.answered });
    return this.takePending().slice(1);
  }

  // Own contents -------------------------------------------------------------------------------------------------

  /** @returns {any[]} */
  pendingRecords() {
    const { inFlight, queue } = this;
    return inFlight && inFlight.content !== null ? [inFlight, ...queue] : queue;
  }

  contents() {
    return this.pendingRecords().map(({ content }) => content);
  }

  checkLoaded() {
    if (this.state === 'closed') refuse('ERR_CLOSED');
    if (this.version === null) refuse('ERR_NOT_LOADED');
  }

  submit({ content, source, waiter }) {
    this.checkLoaded();
    const done = content.op ? this.completed(content.op) : { content, data: applyContent(this.data, content) };
    if (done.content.op && done.content.op.length === 0) {
      this.resolve([waiter], { version: null });
      return;
    }
    this.checkSendable(done.content);
    this.enqueue(done.content, waiter);
    if (done.content.op) this.hold();
    this.show(done.data, done.content, source, true);
  }

  // Waits for the other edits of this tick, which are joined with this one.
  hold() {
    if (!this.batch || this.preventCompose || this.isHeld) return;
    this.isHeld = true;
    this.out.release = true;
  }

  completed(operation) {
    if (this.data === undefined) refuse('ERR_DOC_DOES_NOT_EXIST');
    const { operation: whole, data } = completeOverlaid(this.data, operation);
    return { content: { op: withShortRemoved(whole, this.room) }, data };
  }

  checkSendable(content) {
    const text = this.textOf(content, Number.MAX_SAFE_INTEGER, Number.MAX_SAFE_INTEGER);
    if (isSendable(text)) return;
    const reason = `${bytesOf(text)} bytes, and the server takes at most ${LONGEST_MESSAGE}`;
    throw refusal('ERR_MESSAGE_BADLY_FORMED', reason);
  }

  enqueue(content, waiter) {
    const last = this.queue[this.queue.length - 1];
    const waiting = last && !this.preventCompose ? last.content.op : undefined;
    const length = content.op ? lengthOf(content.op) : 0;
    if (!waiting || !content.op || !isComposable(waiting.length + content.op.length, last.length + length)) {
      const number = last ? last.number + 1 : 0;
      this.queue.push({ number, content, length, waiters: [waiter], since: this.now() });
      return;
    }
    const joined = compose(waiting, content.op);
    Object.assign(last, { content: { op: joined }, length: last.length + length });
    last.waiters.push(waiter);
    if (joined.length > 0) return;
    this.queue.pop();
    this.resolve(last.waiters, { version: null });
  }

  textOf(content, version, seq, source = this.source) {
    return JSON.stringify({ a: 'op', ...this.address, v: version, src: source, seq, ...content });
  }

  // At most one content is in flight. The next one is sent at the version that includes it.
  sendNext() {
    if (this.inFlight === null) {
      const first = this.isHeld ? undefined : this.queue.shift();
      if (first) this.takeFirst(first);
    }
    const own = this.inFlight;
    if (own === null || own.sent || !own.saved) return;
    own.sent = true;
    this.out.messages.push(own.text);
  }

  // Sends a content again, as it applies now: the server may have refused it since it missed too much.
  sendAgain(own) {
    const fits = own.content !== null && (!own.content.op || firstPart(own.content.op, this.room).rest.length === 0);
    if (fits) own.text = this.textOf(own.content, this.version, own.seq, own.source);
    if (fits && this.stores) Object.assign(own, { saved: false, sent: false });
    else this.out.messages.push(own.text);
  }

  // An operation that grew beyond the server's limits is sent in parts. Its promise waits for the last one.
  takeFirst({ number, content, waiters, since }) {
    const { part, rest } = content.op ? firstPart(content.op, this.room) : { part: null, rest: [] };
    if (rest.length > 0) this.queue.unshift({ number, content: { op: rest }, length: lengthOf(rest), waiters, since });
    const sent = part ? { op: part } : content;
    const seq = this.nextNumber();
    this.inFlight = {
      content: sent,
      source: this.source,
      seq,
      text: this.textOf(sent, this.version, seq),
      saved: !this.stores,
      sent: false,
      answered: null, // the version, if it was acknowledged
      waiters: rest.length > 0 ? [] : waiters,
      since,
      lost: null, // the content, if the server will refuse it
      dropped: [], // the contents made on it
    };
  }

  // Drops pending contents from one on. The answer to the one in flight is outstanding, so it stays without a content.
  // Returns those that are dropped now.
  dropFrom(at) {
    const record = this.inFlight;
    const sent = this.pendingRecords().length - this.queue.length;
    if (record === null || at >= sent) return this.queue.splice(at - sent);
    Object.assign(record, { lost: record.content, content: null, dropped: this.queue.splice(0) });
    return [];
  }

  // The operation in flight isn't stored: it is dropped, with those made on it. The document is fetched and compared.
  refused(error) {
    const record = /** @type {InFlight} */ (this.inFlight);
    const isKnown = record.content === null;
    const dropped = [record, ...(isKnown ? record.dropped : this.queue.splice(0))];
    this.inFlight = null;
    if (!isKnown) this.replaceData();
    this.reportDropped(dropped, error);
    this.request('f', null, 'check');
  }

  reportDropped(records, error) {
    const contents = records.map(({ content, lost }) => content || lost);
    for (const { waiters } of records) this.reject(waiters, error);
    // Another client created the document first, as `createIfAbsent` allows.
    const isLostCreate = error.code === 'ERR_DOC_ALREADY_CREATED' && contents.every(({ create }) => create);
    if (contents.length > 0 && !isLostCreate) this.emit('refused', { error, contents });
  }

  // The connection -----------------------------------------------------------------------------------------------

  connected() {
    if (this.isRestoring) return;
    this.state = 'idle';
    for (const request of this.requests.splice(0)) this.sendRequest(request);
  }

  disconnected() {
    this.state = 'offline';
    this.followed = false;
    this.isComparing = false;
    this.fetched = null;
    this.arrived.clear();
    const requests = [...this.requests, ...this.delayed];
    this.requests = requests.filter(({ purpose }) => purpose === 'list');
    this.delayed = [];
    for (const { kind, purpose, waiters } of requests) {
      if (kind === 'u') this.resolve(waiters);
      else if (purpose !== 'list') this.fetchers.push(...waiters);
    }
    if (this.inFlight !== null) Object.assign(this.inFlight, { sent: false, answered: null });
  }

  closed(error) {
    this.disconnected();
    this.state = 'closed';
    this.wanted = false;
    this.failure = error;
    if (this.stores) for (const { waiters } of this.takePending()) this.reject(waiters, error);
    else this.discard({ error });
  }

  // The storage ----------------------------------------------------------------------------------------------------

  // The storage has been read. It may not have the document.
  restored({ kept }) {
    if (kept !== null) this.restore(kept);
    this.isRestoring = false;
  }

  /** @param {Kept} kept */
  restore({ version, last, data, log, sent, queue }) {
    const fresh = (one) => ({ ...one, waiters: [], since: this.now() });
    this.confirmed = log.reduce((before, { content }) => applyContent(before, content), data);
    this.version = version + log.length;
    this.last = log[log.length - 1] || last;
    this.queue = queue.map(fresh);
    if (sent !== null) this.inFlight = { ...fresh(sent), dropped: sent.dropped.map(fresh) };
    this.replaceData();
    this.emit('load', { version: this.version });
  }

  // The message is saved. Without one the storage keeps the document no more.
  saved({ text }) {
    this.stores = text !== undefined;
    if (this.inFlight !== null && (!this.stores || this.inFlight.text === text)) this.inFlight.saved = true;
  }

  // Calls --------------------------------------------------------------------------------------------------------

  // A call begins again after a refusal of the document.
  resume() {
    if (this.state === 'closed') refuse('ERR_CLOSED');
    if (this.state === 'refused') this.state = 'idle';
  }

  fetch({ waiter }) {
    this.resume();
    this.fetchers.push(waiter);
  }

  subscribe({ waiter }) {
    this.resume();
    this.wanted = true;
    this.subscribers.push(waiter);
  }

  unsubscribe({ waiter }) {
    this.wanted = false;
    this.reject(this.subscribers.splice(0), new Refusal('ERR_CLOSED'));
    this.leavers.push(waiter);
  }

  list({ from, waiter }) {
    if (this.state === 'closed') refuse('ERR_CLOSED');
    const request = { kind: 'f', from, purpose: 'list', waiters: [waiter], listed: [] };
    if (this.state === 'offline') this.requests.push(request);
    else this.sendRequest(request);
  }

  until({ holds, begins, waiter }) {
    this.conditions.push({ holds, begins, waiter });
  }

  discard({ error }) {
    const dropped = this.takePending();
    if (dropped.length > 0) this.replaceData();
    this.reportDropped(dropped, error);
  }

  receive({ message, error }) {
    if (error) this.receiveError(message, error);
    else if (message.a === 'op') this.receiveOperation(message);
    else this.receiveAnswer(message);
  }
}

// Returns the effects of a transition that has none.
/** @returns {Omit<Transition, 'state'>} */
function nothing() {
  const effects = { messages: [], settled: [], events: [], changes: [], retries: [], comparison: null, release: false };
  return { ...effects, seen: [], replaced: false };
}

const INPUTS = {
  connected: (machine) => machine.connected(),
  disconnected: (machine) => machine.disconnected(),
  failed: (machine, { error }) => (machine.failure = error),
  trying: (machine) => (machine.failure = null),
  closed: (machine, { error }) => machine.closed(error),
  restored: (machine, input) => machine.restored(input),
  saved: (machine, input) => machine.saved(input),
  message: (machine, input) => machine.receive(input),
  compared: (machine, input) => machine.receiveCompared(input),
  retry: (machine, input) => machine.retry(input),
  fetch: (machine, input) => machine.fetch(input),
  subscribe: (machine, input) => machine.subscribe(input),
  unsubscribe: (machine, input) => machine.unsubscribe(input),
  submit: (machine, input) => machine.submit(input),
  list: (machine, input) => machine.list(input),
  until: (machine, input) => machine.until(input),
  release: (machine) => (machine.isHeld = false),
  kept: () => {}, // only the conditions have changed
  advance: () => {}, // each transition processes an operation, if there is one
  discard: (machine, input) => machine.discard(input),
};

export function dataOf(snapshot) {
  return has(snapshot, 'data') ? snapshot.data : undefined;
}

function contentOf(message) {
  if (message.op) return { op: message.op };
  if (message.create) return { create: message.create };
  return message.del ? { del: true } : null;
}

// Returns the last run of versions of a list that starts at the requested version. Earlier operations belong to the
// subscription.
function listedFrom(entries, from) {
  const start = entries.map(({ version }) => version).lastIndexOf(from);
  if (start < 0) return [];
  return entries.slice(start).map(({ version, source, seq, content }) => ({ version, source, seq, ...content }));
}
