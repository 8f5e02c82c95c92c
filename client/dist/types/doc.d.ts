/**
 * Runs a transition of the document, and then its effects.
 * @internal
 */
export function run(core: any, input: any): void;
/** Closes the document: whatever waits is refused. @internal */
export function close(core: any): void;
/** An application requests the document again: it is destroyed no more. @internal */
export function keep(core: any): void;
/** @internal */
export function coreFor(transport: any, collection: any, id: any): any;
/** Milliseconds after which a pending edit is reported as waiting. */
export const PATIENCE: 2000;
/** @typedef {import('./ot/component.js').Operation} Operation */
/** @typedef {import('./ot/component.js').Path} Path */
/**
 * @template T
 * @typedef {import('./ot/component.js').Frozen<T>} Frozen
 */
/** @typedef {import('./content.js').Content} Content */
/** @typedef {import('./machine.js').State} DocState */
/**
 * A stored operation.
 * @typedef {Content & {version: number, source: string, seq: number}} Entry
 */
/**
 * A document at a version; `data` is undefined if none existed.
 * @template [T=any]
 * @typedef {{version: number, data: T | undefined}} Snapshot
 */
/** @typedef {{version: number, source: string, seq: number}} Seen */
/**
 * The events of a document. `source` is, for an own edit, the argument of `submit`, `create` or `remove`, or else this
 * client's source; for others it is their writer's source.
 * @template [T=any]
 * @typedef {object} DocEvents
 * @property {{version: number}} load the whole document was received, at first and after a restart of the server
 * @property {{operation: Operation, source: any, local: boolean, before: Frozen<T>, data: Frozen<T>}} op an operation
 *   changed `data`
 * @property {{source: any, local: boolean, data: Frozen<T>}} create the document was created
 * @property {{source: any, local: boolean, data: Frozen<T>}} remove the document was deleted; `data` is the document
 *   before it
 * @property {{operation: Operation | null, source: any, local: boolean, before: Frozen<T> | undefined,
 *   data: Frozen<T> | undefined}} change `data` has changed: by an operation or, if that is null, as a whole
 * @property {Seen} version a stored operation of any client was received
 * @property {Seen} stored an own operation was received
 * @property {{error: Refusal, contents: Content[]}} refused own edits were dropped
 * @property {{version: number, data: Frozen<T> | undefined, contents: Content[]}} restarted the server was restarted
 *   and has lost the document: `data` is the document as it was stored, `contents` are the pending edits, which are
 *   dropped
 * @property {{version: number}} healed the document here differed from the server's and was replaced
 * @property {{waiting: boolean}} waiting an edit waits for more than two seconds, or no edit does
 * @property {Refusal} error the document can't be subscribed to or fetched
 */
/** @typedef {{source?: any}} SubmitOptions `source` is any value, which listeners receive */
/** @typedef {SubmitOptions & {path?: Path}} ChangeOptions `path` leads to the value that is changed */
/** @typedef {Promise<{version: number | null}>} Submitted the version, or null if there was nothing to store */
/**
 * A document that is fetched or subscribed to, and edited. `Client.document` returns it.
 * @template [T=any]
 * @extends {Emitter<DocEvents<T>>}
 */
export class Doc<T = any> extends Emitter<DocEvents<T>> {
    /**
     * @param {any} transport
     * @param {string} collection
     * @param {string} id
     * @package
     */
    constructor(transport: any, collection: string, id: string);
    /** A collection, or the name of a projection. */
    get collection(): any;
    /** @returns {string} */
    get id(): string;
    /**
     * The state over this connection.
     * @returns {DocState}
     */
    get state(): import("./machine.js").State;
    /**
     * The version seen, null before the first answer.
     * @returns {number | null}
     */
    get version(): number | null;
    /**
     * The document with own edits: never change it. It is undefined if none exists.
     * @returns {Frozen<T> | undefined}
     */
    get data(): import("./ot/component.js").Frozen<T> | undefined;
    /**
     * A value of `data`, for documents with large objects: `data` copies each object that has changed since it was read.
     * @param {Path} path
     * @returns {any} undefined if there is none
     */
    valueAt(path: import("./ot/component.js").Path): any;
    /**
     * The server's document at `version`, without pending edits.
     * @returns {Frozen<T> | undefined}
     */
    get confirmed(): import("./ot/component.js").Frozen<T> | undefined;
    /**
     * The source of this client's edits.
     * @returns {string}
     */
    get source(): string;
    /**
     * The number of own edits that aren't known to be stored; edits in a row count as one.
     * @returns {number}
     */
    get pending(): number;
    /**
     * Whether an edit waits for more than two seconds, with a connection or without.
     * @returns {boolean}
     */
    get waiting(): boolean;
    /**
     * Whether a subscription is wanted.
     * @returns {boolean}
     */
    get wanted(): boolean;
    set preventCompose(arg: boolean);
    /**
     * Whether each edit is stored as an operation of its own, and sent as soon as possible. Otherwise `submit` joins an
     * edit with one that waits.
     * @type {boolean}
     */
    get preventCompose(): boolean;
    /**
     * Brings the document up to date, without a subscription.
     * @returns {Promise<this>} is fulfilled when `data` is the document at the server's version of the fetch
     */
    fetch(): Promise<Doc<T>>;
    /**
     * Subscribes to the document, over this connection and the next ones.
     * @returns {Promise<this>} is fulfilled when the document is loaded and the server sends its operations
     */
    subscribe(): Promise<Doc<T>>;
    /**
     * Unsubscribes from the document. Pending edits are still sent.
     * @returns {Promise<void>} is fulfilled when the server has answered, or at once without a connection
     */
    unsubscribe(): Promise<void>;
    /**
     * Waits until nothing is pending, unsubscribes, and drops the document: the client then returns another object for
     * it. Edits and subscriptions after this call are refused with ERR_CLOSED, and never sent. If `Client.document` is
     * called for it before the end, the document stays and takes edits again.
     * @param {{discard?: boolean, forget?: boolean}} [options] `discard` drops pending edits instead of waiting for them,
     *   `forget` also removes the document from the storage
     * @returns {Promise<void>}
     */
    destroy(options?: {
        discard?: boolean | undefined;
        forget?: boolean | undefined;
    } | undefined): Promise<void>;
    /**
     * The document at a version.
     * @param {number | null} [version] the present one by default
     * @returns {Promise<Snapshot<T>>}
     */
    snapshot(version?: number | null | undefined): Promise<Snapshot<T>>;
    /**
     * The document at a time of the server's clock.
     * @param {number | null} [moment] in milliseconds since 1970, as Date.now() returns; the present version without one
     * @returns {Promise<Snapshot<T>>}
     */
    snapshotAtTime(moment?: number | null | undefined): Promise<Snapshot<T>>;
    /**
     * The stored operations from a version on.
     * @param {number} [from]
     * @returns {Promise<Entry[]>}
     */
    operations(from?: number | undefined): Promise<Entry[]>;
    /**
     * Creates the document.
     * @param {T} data
     * @param {SubmitOptions} [options]
     * @returns {Promise<{version: number}>} the version at which it is stored; refused with ERR_DOC_ALREADY_CREATED if
     * the document exists
     */
    create(data: T, options?: SubmitOptions | undefined): Promise<{
        version: number;
    }>;
    /**
     * Creates the document if none exists. If another client was first, its document stays.
     * @param {T} data
     * @returns {Promise<void>} is fulfilled when the document exists
     */
    createIfAbsent(data: T): Promise<void>;
    /**
     * Edits the document. The edit changes `data` at once. It is sent once the one in flight is stored, together with the
     * other edits of this tick, which no `await` separates. It is completed by `data`: `ld` and `od` become the values
     * that are removed.
     * @param {Operation} operation on `data`
     * @param {SubmitOptions} [options]
     * @returns {Promise<{version: number | null}>} the version at which it is stored, null if there was nothing to store.
     * If it can't be applied here it is refused at once, and nothing is changed.
     */
    submit(operation: import("./ot/component.js").Operation, options?: SubmitOptions | undefined): Promise<{
        version: number | null;
    }>;
    /**
     * Deletes the document. `removeAt` removes a value of it.
     * @param {SubmitOptions} [options] a path is refused
     * @returns {Promise<{version: number}>}
     */
    remove(options?: SubmitOptions | undefined): Promise<{
        version: number;
    }>;
    /**
     * Sets a key of an object, or replaces an item of a list. Of concurrent values the one that is stored later stays.
     * @param {Path} path of the value
     * @param {any} value
     * @param {SubmitOptions} [options]
     * @returns {Submitted}
     */
    set(path: import("./ot/component.js").Path, value: any, options?: SubmitOptions | undefined): Submitted;
    /**
     * Inserts an item into a list, or a text into a text.
     * @param {Path} path of the list or text
     * @param {number} at an index, or an offset in UTF-16 units
     * @param {any} value an item, or a text
     * @param {SubmitOptions} [options]
     * @returns {Submitted}
     */
    insert(path: import("./ot/component.js").Path, at: number, value: any, options?: SubmitOptions | undefined): Submitted;
    /**
     * Removes a key of an object, or an item of a list.
     * @param {Path} path of the value
     * @param {SubmitOptions} [options]
     * @returns {Submitted}
     */
    removeAt(path: import("./ot/component.js").Path, options?: SubmitOptions | undefined): Submitted;
    /**
     * Removes items of a list, or a part of a text.
     * @param {Path} path of the list or text
     * @param {number} at an index, or an offset in UTF-16 units
     * @param {number} count of items, or of UTF-16 units
     * @param {SubmitOptions} [options]
     * @returns {Submitted}
     */
    removeRange(path: import("./ot/component.js").Path, at: number, count: number, options?: SubmitOptions | undefined): Submitted;
    /**
     * Adds to a number. Concurrent amounts are all added.
     * @param {Path} path of the number
     * @param {number} amount
     * @param {SubmitOptions} [options]
     * @returns {Submitted}
     */
    add(path: import("./ot/component.js").Path, amount: number, options?: SubmitOptions | undefined): Submitted;
    /**
     * Changes the document as the callback changes a copy of it: the smallest operation between them is submitted. It
     * costs time for each value of the document, or of the part that the option `path` names.
     * @template [Part=T]
     * @param {(draft: Part) => unknown} change changes a list or object in place, and returns any other value anew
     * @param {ChangeOptions} [options]
     * @returns {Submitted}
     */
    change<Part = T>(change: (draft: Part) => unknown, options?: ChangeOptions | undefined): Submitted;
    /**
     * @param {() => void} [listener]
     * @returns {Promise<void>} is fulfilled when nothing is pending
     */
    whenNothingPending(listener?: (() => void) | undefined): Promise<void>;
}
export type Operation = import('./ot/component.js').Operation;
export type Path = import('./ot/component.js').Path;
export type Frozen<T> = import('./ot/component.js').Frozen<T>;
export type Content = import('./content.js').Content;
export type DocState = import('./machine.js').State;
/**
 * A stored operation.
 */
export type Entry = Content & {
    version: number;
    source: string;
    seq: number;
};
/**
 * A document at a version; `data` is undefined if none existed.
 */
export type Snapshot<T = any> = {
    version: number;
    data: T | undefined;
};
export type Seen = {
    version: number;
    source: string;
    seq: number;
};
/**
 * The events of a document. `source` is, for an own edit, the argument of `submit`, `create` or `remove`, or else this
 * client's source; for others it is their writer's source.
 */
export type DocEvents<T = any> = {
    /**
     * the whole document was received, at first and after a restart of the server
     */
    load: {
        version: number;
    };
    /**
     * an operation
     * changed `data`
     */
    op: {
        operation: import("./ot/component.js").Operation;
        source: any;
        local: boolean;
        before: Frozen<T>;
        data: Frozen<T>;
    };
    /**
     * the document was created
     */
    create: {
        source: any;
        local: boolean;
        data: Frozen<T>;
    };
    /**
     * the document was deleted; `data` is the document
     * before it
     */
    remove: {
        source: any;
        local: boolean;
        data: Frozen<T>;
    };
    /**
     * `data` has changed: by an operation or, if that is null, as a whole
     */
    change: {
        operation: import("./ot/component.js").Operation | null;
        source: any;
        local: boolean;
        before: Frozen<T> | undefined;
        data: Frozen<T> | undefined;
    };
    /**
     * a stored operation of any client was received
     */
    version: Seen;
    /**
     * an own operation was received
     */
    stored: Seen;
    /**
     * own edits were dropped
     */
    refused: {
        error: Refusal;
        contents: Content[];
    };
    /**
     * the server was restarted
     * and has lost the document: `data` is the document as it was stored, `contents` are the pending edits, which are
     * dropped
     */
    restarted: {
        version: number;
        data: Frozen<T> | undefined;
        contents: Content[];
    };
    /**
     * the document here differed from the server's and was replaced
     */
    healed: {
        version: number;
    };
    /**
     * an edit waits for more than two seconds, or no edit does
     */
    waiting: {
        waiting: boolean;
    };
    /**
     * the document can't be subscribed to or fetched
     */
    error: Refusal;
};
/**
 * `source` is any value, which listeners receive
 */
export type SubmitOptions = {
    source?: any;
};
/**
 * `path` leads to the value that is changed
 */
export type ChangeOptions = SubmitOptions & {
    path?: (string | number)[];
};
/**
 * the version, or null if there was nothing to store
 */
export type Submitted = Promise<{
    version: number | null;
}>;
import { Emitter } from "./emitter.js";
import { Refusal } from "./errors.js";
