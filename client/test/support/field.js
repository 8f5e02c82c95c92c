/* A stand-in for a text field: `value` is set by a binding, and `text` by the test, as a user's keys do. */

export class Field {
  constructor() {
    this.listeners = {};
    this.text = '';
    this.selectionStart = 0;
    this.selectionEnd = 0;
    this.selectionDirection = 'none';
    this.scrollTop = 0;
    this.changes = 0; // of `value`, by the binding
  }

  get value() {
    return this.text;
  }

  set value(text) {
    this.changes += 1;
    this.text = text;
    this.scrollTop = 0;
    this.setSelectionRange(text.length, text.length);
  }

  setSelectionRange(from, to, direction = 'none') {
    const [selectionStart, selectionEnd] = [from, to].map((offset) => Math.min(offset, this.text.length));
    Object.assign(this, { selectionStart, selectionEnd, selectionDirection: direction });
  }

  addEventListener(event, listener) {
    (this.listeners[event] = this.listeners[event] || new Set()).add(listener);
  }

  removeEventListener(event, listener) {
    this.listeners[event].delete(listener);
  }

  get listening() {
    return Object.values(this.listeners).reduce((sum, { size }) => sum + size, 0);
  }

  /** Returns whether a listener has prevented the browser's own action. */
  emit(event, detail = {}) {
    let isPrevented = false;
    const preventDefault = () => (isPrevented = true);
    for (const listener of this.listeners[event] || []) listener({ ...detail, preventDefault });
    return isPrevented;
  }

  /** Presses a key with modifiers, as `press('z', 'ctrlKey')`. */
  press(key, ...modifiers) {
    const held = Object.fromEntries(modifiers.map((name) => [name, true]));
    return this.emit('keydown', { key, altKey: false, ctrlKey: false, metaKey: false, shiftKey: false, ...held });
  }

  /** Replaces a part of the text, with the caret after it. */
  type(from, to, text) {
    this.text = this.text.slice(0, from) + text + this.text.slice(to);
    this.setSelectionRange(from + text.length, from + text.length);
    this.emit('input');
  }
}
