/**
 * Undo and redo of a document's own edits, while others edit it.
 *
 * A group is the inverse of own edits that were made one soon after the other. Of the stacks `undos` and `redos` the
 * last group applies to `data`, the one before it to `data` after the last one was applied, and so on. An operation of
 * others is transformed against the last group, then what it has become against the one before it.
 * @module
 */
import { isComposable, lengthOf } from './content.js';
import { Emitter } from './emitter.js';
import { orRefusal } from './errors.js';
import { observe, submitAtOnce } from './observers.js';
import { compose } from './ot/compose.js';
import { invert } from './ot/invert.js';
import { cross } from './ot/transform.js';
import { withoutRemovedValues } from './parts.js';

/** @typedef {import('./ot/component.js').Operation} Operation */
/** @typedef {import('./observers.js').Change} Change */
/** @typedef {{operation: Operation, length: number, time: number}} Group `time` is that of its last edit */
/**
 * @typedef {object} UndoOptions
 * @property {number} [groupBy] milliseconds: an edit joins the group of the one before if that is less old. 500 by
 *   default; with 0 each edit is a group
 * @property {number} [limit] the largest number of groups that are kept: 100
 */
/**
 * @typedef {object} UndoEvents
 * @property {{canUndo: boolean, canRedo: boolean}} change the number of groups has changed
 */

/**
 * Undoes and redoes the document's own edits, each by an edit whose source is the manager.
 * @extends {Emitter<UndoEvents>}
 */
export class UndoManager extends Emitter {
  /**
   * @param {import('./doc.js').Doc<any>} doc
   * @param {UndoOptions} [options]
   */
  constructor(doc, options = {}) {
    super();
    const { groupBy = 500, limit = 100 } = options;
    const state = { doc, groupBy, limit, undos: [], redos: [], isOpen: false, target: null, emitted: '0 0' };
    const stops = [observe(doc, (change) => receive(state, change)), doc.on('change', () => emitChange(this))];
    Object.assign(state, { stops });
    Object.defineProperty(this, '_undo', { value: () => state });
  }

  /** @returns {boolean} */
  get canUndo() {
    return stateOf(this).undos.length > 0;
  }

  /** @returns {boolean} */
  get canRedo() {
    return stateOf(this).redos.length > 0;
  }

  /**
   * Undoes the last group of own edits. If its inverse is refused at once, no group can be undone any more.
   * @returns {Promise<{version: number | null}>} as of `submit`; null if there was nothing to undo
   */
  undo() {
    return applyLast(this, 'undos', 'redos');
  }

  /**
   * Redoes what was undone last, if no own edit was made since.
   * @returns {Promise<{version: number | null}>} as of `submit`; null if there was nothing to redo
   */
  redo() {
    return applyLast(this, 'redos', 'undos');
  }

  /** Forgets what can be undone and redone. */
  clear() {
    Object.assign(stateOf(this), { undos: [], redos: [] });
    emitChange(this);
  }

  /** Ends the manager: later edits can't be undone by it. */
  stop() {
    for (const stop of stateOf(this).stops.splice(0)) stop();
    this.clear();
  }
}

function stateOf(manager) {
  return manager._undo();
}

function emitChange(manager) {
  const state = stateOf(manager);
  const { canUndo, canRedo } = manager;
  const counted = `${state.undos.length} ${state.redos.length}`;
  if (counted === state.emitted) return;
  state.emitted = counted;
  manager.emit('change', { canUndo, canRedo });
}

// Applies the last group of a stack. Its inverse is pushed onto the target by `receive`.
function applyLast(manager, from, target) {
  const state = stateOf(manager);
  const group = state[from].pop();
  if (group === undefined) return Promise.resolve({ version: null });
  state.target = target;
  try {
    return submitAtOnce(state.doc, group.operation, manager);
  } catch (error) {
    // (the groups before it apply only after it)
    state[from] = [];
    emitChange(manager);
    return Promise.reject(error);
  } finally {
    state.target = null;
  }
}

/**
 * Observes a change of `data`.
 * @param {any} state
 * @param {Change} change
 */
function receive(state, { operation, local, before }) {
  if (operation === null) {
    Object.assign(state, { undos: [], redos: [] });
  } else if (local) {
    keepInverse(state, withoutRemovedValues(invert(operation, before)));
  } else {
    state.undos = transformGroups(state.undos, operation);
    state.redos = transformGroups(state.redos, operation);
  }
}

function keepInverse(state, inverse) {
  const { doc, target, undos, groupBy, limit } = state;
  state.target = null; // (a listener may edit while the edit of undo is submitted)
  const time = doc._doc().machine.now();
  const length = lengthOf(inverse);
  const last = state.isOpen ? undos[undos.length - 1] : undefined;
  if (target !== null) {
    state[target].push({ operation: inverse, length, time });
  } else if (last && isJoined(last, inverse, length, time - groupBy)) {
    Object.assign(last, { operation: compose(inverse, last.operation), length: last.length + length, time });
  } else {
    undos.push({ operation: inverse, length, time });
  }
  state.isOpen = target === null;
  if (target === null) state.redos = [];
  if (state.undos.length > limit) state.undos.shift();
}

// A group is bounded as a submission of joined edits is.
function isJoined(last, inverse, length, since) {
  return last.time > since && isComposable(last.operation.length + inverse.length, last.length + length);
}

// Transforms the groups of a stack against an operation of others. One that can't be transformed is dropped with those
// before it.
function transformGroups(groups, operation) {
  const kept = [];
  let other = operation;
  for (const group of groups.slice().reverse()) {
    const crossed = orRefusal(() => cross(group.operation, other), () => null);
    if (crossed === null) break;
    other = crossed.right;
    if (crossed.left.length > 0) kept.push({ ...group, operation: crossed.left });
  }
  return kept.reverse();
}
