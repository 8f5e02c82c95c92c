/** @typedef {import('./ot/component.js').Path} Path */
/** @typedef {import('./ot/component.js').Operation} Operation */
/** @typedef {HTMLInputElement | HTMLTextAreaElement} Field */
/**
 * @typedef {object} TextBindingOptions
 * @property {import('./undo.js').UndoManager} [undo] undoes and redoes by the field's keys: Ctrl-Z, Ctrl-Shift-Z and
 *   Ctrl-Y, or with the command key
 * @property {(error: any) => void} [refused] receives the error of an edit that was refused. By default it is reported
 */
/** @typedef {{unbind: () => void}} TextBinding `unbind` leaves the field as it is */
/**
 * Binds a text field to a text of the document. While there is no text at the path, the field is left alone.
 * @param {Field} field
 * @param {import('./doc.js').Doc<any>} doc
 * @param {Path} path of the text. It moves with the items of lists
 * @param {TextBindingOptions} [options]
 * @returns {TextBinding}
 */
export function bindText(field: Field, doc: import('./doc.js').Doc<any>, path: import("./ot/component.js").Path, options?: TextBindingOptions | undefined): TextBinding;
export type Path = import('./ot/component.js').Path;
export type Operation = import('./ot/component.js').Operation;
export type Field = HTMLInputElement | HTMLTextAreaElement;
export type TextBindingOptions = {
    /**
     * undoes and redoes by the field's keys: Ctrl-Z, Ctrl-Shift-Z and
     * Ctrl-Y, or with the command key
     */
    undo?: import("./undo.js").UndoManager | undefined;
    /**
     * receives the error of an edit that was refused. By default it is reported
     */
    refused?: ((error: any) => void) | undefined;
};
/**
 * `unbind` leaves the field as it is
 */
export type TextBinding = {
    unbind: () => void;
};
