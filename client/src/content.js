/**
 * Contents of submissions: an operation, a create or a delete.
 * @module
 */
import { refuse } from './errors.js';
import { LONGEST_COMPOSED, MOST_COMPOSED } from './limits.js';
import { overlaid } from './ot/apply.js';
import { shapeOf } from './ot/component.js';
import { completeOverlaid } from './ot/invert.js';
import { cross } from './ot/transform.js';

/** @typedef {import('./ot/component.js').Data} Data */
/** @typedef {import('./ot/component.js').Operation} Operation */
/**
 * The content of a submission: one of its members is present.
 * @typedef {{op?: Operation, create?: {type: string, data: any}, del?: true}} Content
 */

/**
 * Returns the document after the content, with overlays; undefined is no document.
 * @param {any} data
 * @param {Content} content
 * @returns {any}
 */
export function applyContent(data, content) {
  if (content.del) return undefined;
  if (content.create) return data === undefined ? content.create.data : refuse('ERR_DOC_ALREADY_CREATED');
  return data === undefined ? refuse('ERR_DOC_DOES_NOT_EXIST') : overlaid(data, /** @type {Operation} */ (content.op));
}

/**
 * Transforms an own content and a stored one against each other. Nothing is left of a stored edit after an own delete:
 * then `stored` is null, and the own contents after the delete stay as they are.
 * @param {Content} own
 * @param {Content} stored
 * @returns {{own: Content, stored: Content | null}}
 */
export function crossContents(own, stored) {
  if (stored.create) return refuse('ERR_DOC_ALREADY_CREATED');
  if (own.del) return { own, stored: null };
  if (stored.del) return refuse('ERR_DOC_WAS_DELETED');
  if (own.create) return refuse('ERR_DOC_ALREADY_CREATED');
  const crossed = cross(/** @type {Operation} */ (own.op), /** @type {Operation} */ (stored.op));
  return { own: { op: crossed.left }, stored: { op: crossed.right } };
}

/**
 * Whether an operation is completed by the document, as another client may have sent it without `od`. Only then the
 * transforms converge.
 * @param {any} data
 * @param {Content} content
 * @returns {boolean}
 */
export function isComplete(data, { op }) {
  if (!op || data === undefined) return true;
  const completed = completeOverlaid(data, op).operation;
  return completed.length === op.length && completed.every((one, at) => shapeOf(one) === shapeOf(op[at]));
}

/**
 * @param {Operation} operation
 * @returns {number} characters
 */
export function lengthOf(operation) {
  return JSON.stringify(operation).length;
}

/**
 * Whether two waiting operations are composed.
 * @param {number} components of both
 * @param {number} length characters of both
 * @returns {boolean}
 */
export function isComposable(components, length) {
  return components <= MOST_COMPOSED && length <= LONGEST_COMPOSED;
}
