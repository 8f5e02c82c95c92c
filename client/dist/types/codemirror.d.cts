/** @typedef {import('./ot/component.cjs').Path} Path */
/** @typedef {import('./ot/component.cjs').Operation} Operation */
/** @typedef {{[name: string]: any}} Modules all of `@codemirror/state` and `@codemirror/view` */
/**
 * @typedef {object} CodeMirrorOptions
 * @property {import('./undo.cjs').UndoManager} [undo] undoes and redoes by the keys Mod-z, Mod-Shift-z and Ctrl-y
 * @property {(error: any) => void} [refused] receives the error of an edit that was refused. By default it is reported
 */
/**
 * Returns an extension that binds an editor to a text of the document. While there is no text at the path, the editor
 * is left alone.
 * @param {Modules} modules
 * @param {import('./doc.cjs').Doc<any>} doc
 * @param {Path} path of the text. It moves with the items of lists
 * @param {CodeMirrorOptions} [options]
 * @returns {any}
 */
export function codeMirror(modules: Modules, doc: import('./doc.cjs').Doc<any>, path: import("./ot/component.cjs").Path, options?: CodeMirrorOptions | undefined): any;
export type Path = import('./ot/component.cjs').Path;
export type Operation = import('./ot/component.cjs').Operation;
/**
 * all of `@codemirror/state` and `@codemirror/view`
 */
export type Modules = {
    [name: string]: any;
};
export type CodeMirrorOptions = {
    /**
     * undoes and redoes by the keys Mod-z, Mod-Shift-z and Ctrl-y
     */
    undo?: import("./undo.cjs").UndoManager | undefined;
    /**
     * receives the error of an edit that was refused. By default it is reported
     */
    refused?: ((error: any) => void) | undefined;
};
