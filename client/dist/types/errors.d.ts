/**
 * A refusal whose message also has the place and the reason.
 * @param {Code} code
 * @param {string} reason
 * @returns {Refusal}
 */
export function refusal(code: Code, reason: string): Refusal;
/**
 * Throws a refusal.
 * @param {Code} code
 * @param {string} [reason]
 * @returns {never}
 */
export function refuse(code: Code, reason?: string | undefined): never;
/**
 * Returns the result of the action, or the value for its refusal.
 * @template Result, Other
 * @param {() => Result} action
 * @param {(error: Refusal) => Other} refused
 * @returns {Result | Other}
 */
export function orRefusal<Result, Other>(action: () => Result, refused: (error: Refusal) => Other): Result | Other;
/**
 * Spells a value for a message.
 * @param {unknown} value
 * @returns {string}
 */
export function spelled(value: unknown): string;
/** A refusal by the server, or by the client in its place. `code` names the reason, `message` the place. */
export class Refusal extends Error {
    /**
     * @param {Code} code
     * @param {string} [message]
     */
    constructor(code: Code, message?: string | undefined);
    /** @type {'Refusal'} */
    name: 'Refusal';
    /** @type {Code} */
    code: Code;
}
/**
 * A code of the server or, from `ERR_CLOSED` on, of the client.
 */
export type Code = 'ERR_MESSAGE_BADLY_FORMED' | 'ERR_DOC_TYPE_NOT_RECOGNIZED' | 'ERR_OT_OP_BADLY_FORMED' | 'ERR_OP_VERSION_NEWER_THAN_CURRENT_SNAPSHOT' | 'ERR_DOC_WAS_DELETED' | 'ERR_DOC_ALREADY_CREATED' | 'ERR_DOC_DOES_NOT_EXIST' | 'ERR_OT_OP_NOT_APPLIED' | 'ERR_OP_NOT_ALLOWED_IN_PROJECTION' | 'ERR_OUT_OF_MEMORY' | 'ERR_LIMIT' | 'ERR_CLOSED' | 'ERR_FORBIDDEN' | 'ERR_NOT_LOADED' | 'ERR_PROTOCOL' | 'ERR_SERVER_RESTARTED' | 'ERR_STORAGE' | 'ERR_UNREACHABLE';
