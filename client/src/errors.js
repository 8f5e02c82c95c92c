/**
 * Refusals and their codes.
 * @module
 */

/**
 * A code of the server or, from `ERR_CLOSED` on, of the client.
 * @typedef {'ERR_MESSAGE_BADLY_FORMED' | 'ERR_DOC_TYPE_NOT_RECOGNIZED' | 'ERR_OT_OP_BADLY_FORMED' |
 *   'ERR_OP_VERSION_NEWER_THAN_CURRENT_SNAPSHOT' | 'ERR_DOC_WAS_DELETED' | 'ERR_DOC_ALREADY_CREATED' |
 *   'ERR_DOC_DOES_NOT_EXIST' | 'ERR_OT_OP_NOT_APPLIED' | 'ERR_OP_NOT_ALLOWED_IN_PROJECTION' | 'ERR_OUT_OF_MEMORY' |
 *   'ERR_LIMIT' | 'ERR_CLOSED' | 'ERR_FORBIDDEN' | 'ERR_NOT_LOADED' | 'ERR_PROTOCOL' | 'ERR_SERVER_RESTARTED' |
 *   'ERR_STORAGE' | 'ERR_UNREACHABLE'} Code
 */

/** @type {Partial<Record<Code, string>>} */
const MESSAGES = {
  ERR_MESSAGE_BADLY_FORMED: 'message is badly formed',
  ERR_OT_OP_BADLY_FORMED: 'operation is badly formed',
  ERR_DOC_WAS_DELETED: 'document was deleted',
  ERR_DOC_ALREADY_CREATED: 'document was already created',
  ERR_DOC_DOES_NOT_EXIST: 'document does not exist',
  ERR_OT_OP_NOT_APPLIED: 'operation can not be applied',
  ERR_CLOSED: 'document is closed, or no longer subscribed to',
  ERR_FORBIDDEN: 'the server does not admit this client',
  ERR_NOT_LOADED: 'document is not loaded: fetch it or subscribe to it first',
  ERR_PROTOCOL: 'the other end is no server of documents',
  ERR_SERVER_RESTARTED: 'the server was restarted and has lost the document',
  ERR_STORAGE: 'the storage has failed',
  ERR_UNREACHABLE: 'the server can not be reached',
};

/** A refusal by the server, or by the client in its place. `code` names the reason, `message` the place. */
export class Refusal extends Error {
  /**
   * @param {Code} code
   * @param {string} [message]
   */
  constructor(code, message = MESSAGES[code]) {
    super(message);
    /** @type {'Refusal'} */
    this.name = 'Refusal';
    /** @type {Code} */
    this.code = code;
  }
}

/**
 * A refusal whose message also has the place and the reason.
 * @param {Code} code
 * @param {string} reason
 * @returns {Refusal}
 */
export function refusal(code, reason) {
  return new Refusal(code, `${MESSAGES[code]}: ${reason}`);
}

/**
 * Throws a refusal.
 * @param {Code} code
 * @param {string} [reason]
 * @returns {never}
 */
export function refuse(code, reason) {
  throw reason === undefined ? new Refusal(code) : refusal(code, reason);
}

/**
 * Returns the result of the action, or the value for its refusal.
 * @template Result, Other
 * @param {() => Result} action
 * @param {(error: Refusal) => Other} refused
 * @returns {Result | Other}
 */
export function orRefusal(action, refused) {
  try {
    return action();
  } catch (error) {
    if (error instanceof Refusal) return refused(error);
    throw error;
  }
}

/**
 * Spells a value for a message.
 * @param {unknown} value
 * @returns {string}
 */
export function spelled(value) {
  let text;
  try {
    text = JSON.stringify(value);
  } catch {
    text = undefined;
  }
  if (text === undefined || typeof value === 'number') text = String(value);
  return text.length > 60 ? `${text.slice(0, 57)}...` : text;
}
