/**
 * Listeners by the name of an event.
 * @module
 */

/**
 * Reports an exception of a listener, which changes nothing else.
 * @param {unknown} error
 */
export function report(error) {
  const { reportError } = /** @type {any} */ (globalThis);
  if (typeof reportError === 'function') reportError(error);
  else console.error(error);
}

/**
 * Keeps listeners by the name of an event. An exception of a listener is reported, and the others are called.
 * Events are emitted one after the other: an event that a listener causes is emitted after the present one. The state
 * is kept in a closure, so that a proxy of the object works too.
 * @template Events
 */
export class Emitter {
  constructor() {
    const state = { listeners: new Map(), waiting: [], isEmitting: false };
    Object.defineProperty(this, '_emitter', { value: () => state });
  }

  /**
   * Calls the listener at each event of this name.
   * @template {keyof Events} Name
   * @param {Name} event
   * @param {(detail: Events[Name]) => void} listener
   * @param {{signal?: AbortSignal}} [options] an aborted signal removes the listener
   * @returns {() => void} removes the listener
   */
  on(event, listener, options) {
    return add(this, event, listener, false, options);
  }

  /**
   * As `on`, for the next event only.
   * @template {keyof Events} Name
   * @param {Name} event
   * @param {(detail: Events[Name]) => void} listener
   * @param {{signal?: AbortSignal}} [options]
   * @returns {() => void} removes the listener
   */
  once(event, listener, options) {
    return add(this, event, listener, true, options);
  }

  /**
   * Removes a listener, or without one all listeners of the event.
   * @template {keyof Events} Name
   * @param {Name} event
   * @param {(detail: Events[Name]) => void} [listener]
   */
  off(event, listener) {
    const { listeners } = stateOf(this);
    listeners.set(event, recordsOf(this, event).filter((record) => listener && record.listener !== listener));
  }

  /**
   * Calls the listeners of an event, after those of the events that are being emitted.
   * @template {keyof Events} Name
   * @param {Name} event
   * @param {Events[Name]} detail
   */
  emit(event, detail) {
    const name = /** @type {string} */ (event);
    emitAll(this, [[name, detail]]);
  }
}

/**
 * Emits events one after the other. Those that a listener causes are emitted after all of these.
 * @param {any} emitter
 * @param {Array<[string, any]>} events
 */
export function emitAll(emitter, events) {
  const state = stateOf(emitter);
  state.waiting.push(...events);
  if (state.isEmitting) return;
  state.isEmitting = true;
  try {
    while (state.waiting.length > 0) {
      const [event, detail] = state.waiting.shift();
      for (const record of recordsOf(emitter, event)) call(emitter, event, record, detail);
    }
  } finally {
    state.isEmitting = false;
  }
}

function stateOf(emitter) {
  return emitter._emitter();
}

function recordsOf(emitter, event) {
  return stateOf(emitter).listeners.get(event) || [];
}

function remove(emitter, event, removed) {
  stateOf(emitter).listeners.set(event, recordsOf(emitter, event).filter((record) => record !== removed));
}

function add(emitter, event, listener, isOnce, options) {
  const signal = options ? options.signal : undefined;
  const record = { listener, isOnce };
  const stop = () => {
    remove(emitter, event, record);
    if (signal) signal.removeEventListener('abort', stop);
  };
  if (signal && signal.aborted) return stop;
  if (signal) signal.addEventListener('abort', stop);
  stateOf(emitter).listeners.set(event, [...recordsOf(emitter, event), Object.assign(record, { stop })]);
  return stop;
}

// A listener that an earlier one removed is not called.
function call(emitter, event, record, detail) {
  if (!recordsOf(emitter, event).includes(record)) return;
  if (record.isOnce) record.stop();
  try {
    record.listener(detail);
  } catch (error) {
    report(error);
  }
}
