/**
 * A text field that shows and edits a text of a document.
 *
 * While an input method composes a text, the field stays as it is: a program that sets its value ends the composition
 * or doubles its letters. What is received meanwhile is shown at the end, and the composed text is sent then.
 * @module
 */
import { report } from './emitter.js';
import { observe, submitAtOnce } from './observers.js';
import { LEFT } from './ot/component.js';
import { compose } from './ot/compose.js';
import { componentsFor, endOf, transformPath, textChange, transformPosition } from './ot/text.js';
import { cross } from './ot/transform.js';

/** @typedef {import('./ot/component.js').Path} Path */
/** @typedef {import('./ot/component.js').Operation} Operation */
/** @typedef {HTMLInputElement | HTMLTextAreaElement} Field */
/**
 * @typedef {object} TextBindingOptions
 * @property {import('./undo.js').UndoManager} [undo] undoes and redoes by the field's keys: Ctrl-Z, Ctrl-Shift-Z and
 *   Ctrl-Y, or with the command key
 * @property {(error: any) => void} [refused] receives the error of an edit that was refused. By default it is reported
 */
/** @typedef {{unbind: () => void}} TextBinding `unbind` leaves the field as it is */

/**
 * Binds a text field to a text of the document. While there is no text at the path, the field is left alone.
 * @param {Field} field
 * @param {import('./doc.js').Doc<any>} doc
 * @param {Path} path of the text. It moves with the items of lists
 * @param {TextBindingOptions} [options]
 * @returns {TextBinding}
 */
export function bindText(field, doc, path, options = {}) {
  const bound = new BoundField(field, doc, path, options);
  return { unbind: () => bound.unbind() };
}

class BoundField {
  /**
   * @param {Field} field
   * @param {any} doc
   * @param {Path} path
   * @param {TextBindingOptions} options
   */
  constructor(field, doc, path, { undo, refused = report }) {
    this.field = field;
    this.doc = doc;
    /** @type {any} */
    this.path = path.slice(); // null once an item with the text is removed
    this.manager = undo;
    this.refused = refused;
    /** @type {any} */
    this.composition = null; // { path, text, missed }: the text before it, and the operation of all changes since
    this.stops = [observe(doc, (change) => this.receive(change))];
    this.listen('input', () => this.composition === null && this.send());
    this.listen('compositionstart', () => this.beginComposition());
    this.listen('compositionend', () => this.send());
    this.listen('keydown', (event) => this.press(event));
    this.listen('beforeinput', (event) => this.move(event, { historyUndo: 'undo', historyRedo: 'redo' }[event.inputType]));
    this.show(null, this.path);
  }

  listen(event, listener) {
    this.field.addEventListener(event, listener);
    this.stops.push(() => this.field.removeEventListener(event, listener));
  }

  unbind() {
    if (this.composition !== null) this.send();
    for (const stop of this.stops.splice(0)) stop();
  }

  get text() {
    const text = this.path === null ? undefined : this.doc.valueAt(this.path);
    return typeof text === 'string' ? text : undefined;
  }

  // The document -------------------------------------------------------------------------------------------------

  receive({ operation, source }) {
    if (source === this || this.path === null) return;
    const { path } = this;
    if (operation !== null) this.path = transformPath(path, operation);
    if (this.composition !== null) this.miss(operation, path);
    else this.show(operation, path, source === this.manager);
  }

  miss(operation, path) {
    const { composition, text } = this;
    if (operation !== null) {
      composition.missed = compose(composition.missed, componentsFor(path, operation));
    } else if (text !== undefined) {
      Object.assign(composition, { path, missed: textChange(path, composition.text, text) });
    }
  }

  // Shows the text after an operation on the text at the path. The caret stays between its two letters, or is set after
  // what was undone.
  show(operation, path, isUndone = false) {
    const { field, text } = this;
    if (text === undefined || field.value === text) return;
    const { selectionStart, selectionEnd, selectionDirection, scrollTop } = field;
    const change = operation || textChange(path, field.value, text);
    const end = isUndone ? endOf(change, path) : null;
    const moved = (offset) => (end === null ? transformPosition(offset, change, path, LEFT) : end);
    field.value = text;
    if (selectionStart !== null) {
      field.setSelectionRange(moved(selectionStart), moved(selectionEnd), selectionDirection || undefined);
    }
    field.scrollTop = scrollTop;
  }

  // The field ----------------------------------------------------------------------------------------------------

  // (a field shows other line breaks than the text may have)
  beginComposition() {
    const { field, path, text = field.value } = this;
    this.composition = { path, text, missed: [] };
  }

  // Sends what the user has changed. If it is refused, the field shows the document's text again.
  send() {
    const { field, doc, composition, text: present } = this;
    this.composition = null;
    if (present === undefined) return;
    const { path, text, missed } = composition || { path: this.path, text: present, missed: [] };
    try {
      const own = textChange(path, text, field.value, field.selectionStart || 0);
      const { left, right } = cross(own, missed);
      submitAtOnce(doc, left, this).catch((error) => this.refuse(error));
      this.show(right, path);
    } catch (error) {
      this.refuse(error);
    }
  }

  refuse(error) {
    if (this.stops.length > 0 && this.composition === null) this.show(null, this.path);
    this.refused(error);
  }

  press(event) {
    const { key, altKey, ctrlKey, metaKey, shiftKey } = event;
    if (altKey || !(ctrlKey || metaKey)) return;
    const moves = shiftKey ? { z: 'redo' } : { z: 'undo', y: ctrlKey ? 'redo' : undefined };
    this.move(event, moves[key.toLowerCase()]);
  }

  // Undoes or redoes in place of the browser, whose own steps end when a program sets the field's value.
  move(event, name) {
    if (this.manager === undefined || name === undefined) return;
    event.preventDefault();
    if (this.composition === null) this.manager[name]().catch((error) => this.refuse(error));
  }
}
