/** @typedef {import('./ot/component.js').Data} Data */
/** @typedef {import('./ot/component.js').Operation} Operation */
/**
 * The content of a submission: one of its members is present.
 * @typedef {{op?: Operation, create?: {type: string, data: any}, del?: true}} Content
 */
/**
 * Returns the document after the content, with overlays; undefined is no document.
 * @param {any} data
 * @param {Content} content
 * @returns {any}
 */
export function applyContent(data: any, content: Content): any;
/**
 * Transforms an own content and a stored one against each other. Nothing is left of a stored edit after an own delete:
 * then `stored` is null, and the own contents after the delete stay as they are.
 * @param {Content} own
 * @param {Content} stored
 * @returns {{own: Content, stored: Content | null}}
 */
export function crossContents(own: Content, stored: Content): {
    own: Content;
    stored: Content | null;
};
/**
 * Whether an operation is completed by the document, as another client may have sent it without `od`. Only then the
 * transforms converge.
 * @param {any} data
 * @param {Content} content
 * @returns {boolean}
 */
export function isComplete(data: any, { op }: Content): boolean;
/**
 * @param {Operation} operation
 * @returns {number} characters
 */
export function lengthOf(operation: import("./ot/component.js").Operation): number;
/**
 * Whether two waiting operations are composed.
 * @param {number} components of both
 * @param {number} length characters of both
 * @returns {boolean}
 */
export function isComposable(components: number, length: number): boolean;
export type Data = import('./ot/component.js').Data;
export type Operation = import('./ot/component.js').Operation;
/**
 * The content of a submission: one of its members is present.
 */
export type Content = {
    op?: import("./ot/component.js").Component[];
    create?: {
        type: string;
        data: any;
    };
    del?: true;
};
