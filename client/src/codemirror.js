/**
 * A text of a document in an editor of CodeMirror 6, without a dependency on it.
 *
 * Operations of others become transactions once the present task ends, and not while an input method composes a text.
 * Until then the editor's own transactions are transformed against them and sent.
 * @module
 */
import { report } from './emitter.js';
import { isText } from './limits.js';
import { observe, submitAtOnce } from './observers.js';
import { has } from './ot/component.js';
import { compose } from './ot/compose.js';
import { componentsFor, endOf, textChange, transformPath } from './ot/text.js';
import { cross } from './ot/transform.js';

/** @typedef {import('./ot/component.js').Path} Path */
/** @typedef {import('./ot/component.js').Operation} Operation */
/** @typedef {{[name: string]: any}} Modules all of `@codemirror/state` and `@codemirror/view` */
/**
 * @typedef {object} CodeMirrorOptions
 * @property {import('./undo.js').UndoManager} [undo] undoes and redoes by the keys Mod-z, Mod-Shift-z and Ctrl-y
 * @property {(error: any) => void} [refused] receives the error of an edit that was refused. By default it is reported
 */

/**
 * Returns an extension that binds an editor to a text of the document. While there is no text at the path, the editor
 * is left alone.
 * @param {Modules} modules
 * @param {import('./doc.js').Doc<any>} doc
 * @param {Path} path of the text. It moves with the items of lists
 * @param {CodeMirrorOptions} [options]
 * @returns {any}
 */
export function codeMirror(modules, doc, path, options = {}) {
  const { Annotation, EditorState, EditorView, Prec, Transaction, ViewPlugin, keymap } = modules;
  const received = Annotation.define();
  const marks = [received.of(true), Transaction.addToHistory.of(false), Transaction.remote.of(true)];
  const plugin = ViewPlugin.define((view) => new BoundEditor(view, doc, path, { received, marks, ...options }));
  const move = (name) => (view) => view.plugin(plugin).move(name);
  const keys = [['Mod-z', 'undo'], ['Mod-Shift-z', 'redo'], ['Ctrl-y', 'redo']];
  const moves = { historyUndo: 'undo', historyRedo: 'redo' };
  const beforeinput = (event, view) => {
    const name = moves[event.inputType];
    if (name === undefined) return false;
    event.preventDefault();
    return move(name)(view);
  };
  const bound = [EditorState.lineSeparator.of('\n'), plugin];
  if (!options.undo) return bound;
  const bindings = keys.map(([key, name]) => ({ key, run: move(name), preventDefault: true }));
  return [...bound, Prec.highest(keymap.of(bindings)), Prec.highest(EditorView.domEventHandlers({ beforeinput }))];
}

// Returns the operation of a transaction. A change that cuts a surrogate pair is made whole.
function operationOf({ changes, startState, newDoc }, path) {
  /** @type {any[]} */
  const operation = [];
  changes.iterChanges((fromA, toA, fromB, toB, inserted) => {
    const p = [...path, fromB];
    if (toA > fromA) operation.push({ p, sd: startState.doc.sliceString(fromA, toA) });
    if (toB > fromB) operation.push({ p, si: inserted.toString() });
  });
  const isWhole = operation.every(({ si = '', sd = '' }) => isText(si) && isText(sd));
  return isWhole ? operation : textChange(path, startState.doc.toString(), newDoc.toString());
}

// Returns the specs of a transaction, one for each change of the text, each at the text after the one before. Null if
// the text is replaced.
function specsOf(operation, path) {
  const specs = [];
  let present = path;
  for (const component of operation) {
    const { p, si = '', sd = '' } = component;
    const from = p[present.length];
    const isInserted = has(component, 'li') && !has(component, 'ld');
    const changes = { from, to: from + sd.length, insert: si };
    if (si || sd) specs.push({ changes, sequential: specs.length > 0, filter: false });
    else if (!isInserted && p.every((step, at) => step === present[at])) return null;
    present = transformPath(present, [component]);
  }
  return specs;
}

class BoundEditor {
  /**
   * @param {any} view
   * @param {any} doc
   * @param {Path} path
   * @param {CodeMirrorOptions & {received: any, marks: any[]}} settings
   */
  constructor(view, doc, path, { received, marks, undo, refused = report }) {
    this.view = view;
    this.doc = doc;
    /** @type {any} */
    this.path = path.slice(); // null once an item with the text is removed
    this.received = received;
    this.marks = marks;
    /** @type {any} */
    this.manager = undo;
    this.refused = refused;
    /** @type {any} */
    this.base = this.path; // the path before `missed`
    /** @type {any} */
    this.missed = []; // from the editor's text to the document's
    this.isLost = false; // there was no text, so the editor's changes weren't sent
    this.isUndone = false;
    this.isEnded = false;
    this.stop = observe(doc, (change) => this.receive(change));
    this.composed = () => setTimeout(() => this.show(), 0); // (the editor reads the composed text before)
    view.contentDOM.addEventListener('compositionend', this.composed);
    this.compare(view.state.doc.toString());
    this.showLater();
  }

  destroy() {
    this.isEnded = true;
    this.stop();
    this.view.contentDOM.removeEventListener('compositionend', this.composed);
  }

  get text() {
    const text = this.path === null ? undefined : this.doc.valueAt(this.path);
    return typeof text === 'string' ? text : undefined;
  }

  // The document -------------------------------------------------------------------------------------------------

  receive({ operation, source }) {
    if (source === this || this.path === null) return;
    const { path } = this;
    if (operation !== null) this.path = transformPath(path, operation);
    if (operation === null || this.isLost) this.compare(this.view.state.doc.toString());
    else this.missed = compose(this.missed, componentsFor(path, operation));
    this.isUndone = this.isUndone || this.manager !== undefined && source === this.manager;
    this.showLater();
  }

  // Computes what the editor misses anew.
  compare(shown) {
    const { text } = this;
    this.base = this.path;
    this.isLost = text === undefined;
    this.missed = text === undefined ? [] : textChange(this.path, shown, text);
  }

  showLater() {
    Promise.resolve().then(() => this.show());
  }

  // Dispatches what the editor misses, but not while a text is composed.
  show() {
    const { view, text, isUndone } = this;
    if (this.isEnded || view.composing || this.missed.length === 0 || text === undefined) return;
    if (specsOf(this.missed, this.base) === null) this.compare(view.state.doc.toString());
    const { missed, base, path } = this;
    const specs = specsOf(missed, base) || [];
    Object.assign(this, { missed: [], base: path, isUndone: false });
    if (specs.length === 0) return;
    const end = isUndone ? endOf(missed, path) : null;
    if (end !== null) Object.assign(specs[specs.length - 1], { selection: { anchor: end }, scrollIntoView: true });
    view.dispatch({ annotations: this.marks }, ...specs);
  }

  // The editor ---------------------------------------------------------------------------------------------------

  update({ transactions }) {
    for (const transaction of transactions) {
      if (transaction.docChanged && !transaction.annotation(this.received)) this.send(transaction);
    }
    if (this.missed.length > 0) this.showLater();
  }

  send(transaction) {
    this.isLost = this.isLost || this.text === undefined;
    if (this.isLost) return;
    try {
      const { left, right } = cross(operationOf(transaction, this.base), this.missed);
      this.missed = right;
      submitAtOnce(this.doc, left, this).catch((error) => this.refuse(error, this.view.state.doc));
    } catch (error) {
      this.refuse(error, transaction.newDoc);
    }
  }

  // Shows the document's text again.
  refuse(error, shown) {
    if (!this.isEnded) this.compare(shown.toString());
    this.showLater();
    this.refused(error);
  }

  move(name) {
    if (!this.view.composing) this.manager[name]().catch((error) => this.refuse(error, this.view.state.doc));
    return true;
  }
}
