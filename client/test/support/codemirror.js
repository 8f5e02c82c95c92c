/*
 * A stand-in for the parts of CodeMirror 6 that the binding uses, by its documentation: Debian has no package of it.
 * A dispatch while the view is updated throws, specs are `sequential`, and plugins see the transactions of an update.
 */

class Text {
  constructor(text) {
    this.text = text;
    this.length = text.length;
  }

  toString() {
    return this.text;
  }

  sliceString(from, to = this.length) {
    return this.text.slice(from, to);
  }
}

// One change of a text from its first to its last different unit.
class Changes {
  constructor(before, after) {
    let from = 0;
    while (from < Math.min(before.length, after.length) && before[from] === after[from]) from += 1;
    let end = 0;
    const most = Math.min(before.length, after.length) - from;
    while (end < most && before[before.length - 1 - end] === after[after.length - 1 - end]) end += 1;
    Object.assign(this, { from, toA: before.length - end, toB: after.length - end, after });
  }

  iterChanges(each) {
    const { from, toA, toB, after } = this;
    if (toA > from || toB > from) each(from, toA, from, toB, new Text(after.slice(from, toB)));
  }
}

const facet = (name) => ({ of: (value) => ({ [name]: value }) });

export const Annotation = { define: () => {
  const type = { of: (value) => ({ type, value }) };
  return type;
} };
export const Transaction = { addToHistory: Annotation.define(), remote: Annotation.define() };
export const EditorState = { lineSeparator: facet('lineSeparator') };
export const Prec = { highest: (extension) => extension };
export const keymap = facet('keys');
export const ViewPlugin = { define: (create) => ({ create }) };

function mapped(position, { from, to, insert }) {
  if (position <= from) return position;
  return position >= to ? position + insert.length - (to - from) : from + insert.length;
}

export class EditorView {
  static domEventHandlers(handlers) {
    return { handlers };
  }

  constructor({ doc, extensions }) {
    const all = [extensions].flat(Infinity);
    this.state = { doc: new Text(doc), caret: 0 };
    this.contentDOM = new EventTarget();
    this.composing = false;
    this.isUpdating = true;
    this.transactions = [];
    this.keys = Object.fromEntries(all.flatMap(({ keys }) => keys || []).map(({ key, run }) => [key, run]));
    this.handlers = Object.assign({}, ...all.map(({ handlers }) => handlers));
    this.lineSeparator = all.find(({ lineSeparator }) => lineSeparator).lineSeparator;
    this.plugins = new Map(all.filter(({ create }) => create).map((plugin) => [plugin, plugin.create(this)]));
    this.isUpdating = false;
  }

  plugin(plugin) {
    return this.plugins.get(plugin);
  }

  get text() {
    return this.state.doc.text;
  }

  dispatch(...specs) {
    if (this.isUpdating) throw new Error('Calls to EditorView.update are not allowed while an update is in progress');
    const startState = this.state;
    let { text } = startState.doc;
    let { caret } = startState;
    const annotations = specs.flatMap((spec) => spec.annotations || []);
    let made = 0;
    for (const { changes, sequential, selection } of specs) {
      if (changes && made > 0 && !sequential) throw new Error('positions of several specs');
      if (changes) {
        const { from, to = from, insert = '' } = changes;
        if (to > text.length) throw new RangeError(`Invalid change range ${from} to ${to}`);
        made += 1;
        text = text.slice(0, from) + insert + text.slice(to);
        caret = mapped(caret, { from, to, insert });
      }
      if (selection) caret = selection.anchor;
    }
    const newDoc = new Text(text);
    this.state = { doc: newDoc, caret };
    const annotation = (type) => annotations.filter((one) => one.type === type).map(({ value }) => value)[0];
    const changes = new Changes(startState.doc.text, text);
    const transaction = { startState, newDoc, changes, docChanged: made > 0, annotation };
    this.transactions.push(transaction);
    this.isUpdating = true;
    try {
      const update = { transactions: [transaction], state: this.state, view: this };
      for (const value of this.plugins.values()) value.update(update);
    } finally {
      this.isUpdating = false;
    }
  }

  /** Types in place of a part of the text, as a user does. */
  type(from, to, insert) {
    this.dispatch({ changes: { from, to, insert }, selection: { anchor: from + insert.length } });
  }

  compose(isComposing) {
    this.composing = isComposing;
    if (!isComposing) this.contentDOM.dispatchEvent(new Event('compositionend'));
  }

  destroy() {
    for (const value of this.plugins.values()) value.destroy();
  }
}
