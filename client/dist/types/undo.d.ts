/** @typedef {import('./ot/component.js').Operation} Operation */
/** @typedef {import('./observers.js').Change} Change */
/** @typedef {{operation: Operation, length: number, time: number}} Group `time` is that of its last edit */
/**
 * @typedef {object} UndoOptions
 * @property {number} [groupBy] milliseconds: an edit joins the group of the one before if that is less old. 500 by
 *   default; with 0 each edit is a group
 * @property {number} [limit] the largest number of groups that are kept: 100
 */
/**
 * @typedef {object} UndoEvents
 * @property {{canUndo: boolean, canRedo: boolean}} change the number of groups has changed
 */
/**
 * Undoes and redoes the document's own edits, each by an edit whose source is the manager.
 * @extends {Emitter<UndoEvents>}
 */
export class UndoManager extends Emitter<UndoEvents> {
    /**
     * @param {import('./doc.js').Doc<any>} doc
     * @param {UndoOptions} [options]
     */
    constructor(doc: import('./doc.js').Doc<any>, options?: UndoOptions | undefined);
    /** @returns {boolean} */
    get canUndo(): boolean;
    /** @returns {boolean} */
    get canRedo(): boolean;
    /**
     * Undoes the last group of own edits. If its inverse is refused at once, no group can be undone any more.
     * @returns {Promise<{version: number | null}>} as of `submit`; null if there was nothing to undo
     */
    undo(): Promise<{
        version: number | null;
    }>;
    /**
     * Redoes what was undone last, if no own edit was made since.
     * @returns {Promise<{version: number | null}>} as of `submit`; null if there was nothing to redo
     */
    redo(): Promise<{
        version: number | null;
    }>;
    /** Forgets what can be undone and redone. */
    clear(): void;
    /** Ends the manager: later edits can't be undone by it. */
    stop(): void;
}
export type Operation = import('./ot/component.js').Operation;
export type Change = import('./observers.js').Change;
/**
 * `time` is that of its last edit
 */
export type Group = {
    operation: import("./ot/component.js").Component[];
    length: number;
    time: number;
};
export type UndoOptions = {
    /**
     * milliseconds: an edit joins the group of the one before if that is less old. 500 by
     * default; with 0 each edit is a group
     */
    groupBy?: number | undefined;
    /**
     * the largest number of groups that are kept: 100
     */
    limit?: number | undefined;
};
export type UndoEvents = {
    /**
     * the number of groups has changed
     */
    change: {
        canUndo: boolean;
        canRedo: boolean;
    };
};
import { Emitter } from "./emitter.js";
