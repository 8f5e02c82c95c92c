/** @typedef {import('./ot/component.cjs').Path} Path */
/** @typedef {import('./ot/component.cjs').Operation} Operation */
/** @typedef {HTMLInputElement | HTMLTextAreaElement} Field */
/**
 * @typedef {object} TextBindingOptions
 * @property {import('./undo.cjs').UndoManager} [undo] undoes and redoes by the field's keys: Ctrl-Z, Ctrl-Shift-Z and
 *   Ctrl-Y, or with the command key
 * @property {(error: any) => void} [refused] receives the error of an edit that was refused. By default it is reported
 */
/** @typedef {{unbind: () => void}} TextBinding `unbind` leaves the field as it is */
/**
 * Binds a text field to a text of the document. While there is no text at the path, the field is left alone.
 * @param {Field} field
 * @param {import('./doc.cjs').Doc<any>} doc
 * @param {Path} path of the text. It moves with the items of lists
 * @param {TextBindingOptions} [options]
 * @returns {TextBinding}
 */
export function bindText(field: Field, doc: import('./doc.cjs').Doc<any>, path: import("./ot/component.cjs").Path, options?: TextBindingOptions | undefined): TextBinding;
export type Path = import('./ot/component.cjs').Path;
export type Operation = import('./ot/component.cjs').Operation;
export type Field = HTMLInputElement | HTMLTextAreaElement;
export type TextBindingOptions = {
    /**
     * undoes and redoes by the field's keys: Ctrl-Z, Ctrl-Shift-Z and
     * Ctrl-Y, or with the command key
     */
    undo?: import("./undo.cjs").UndoManager | undefined;
    /**
     * receives the error of an edit that was refused. By default it is reported
     */
    refused?: ((error: any) => void) | undefined;
};
/**
 * `unbind` leaves the field as it is
 */
export type TextBinding = {
    unbind: () => void;
};
