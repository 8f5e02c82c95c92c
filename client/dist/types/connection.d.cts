/** @internal */
export function keyOf(collection: any, id: any): string;
/** Returns the options with a source and a class, or throws. @internal */
export function completeOptions(options: any): any;
/**
 * Opens a document of which edits are pending until they are stored or refused. The client reports refused ones, since
 * the application may not know the document.
 * @internal
 */
export function resume(client: any, reporter: any, collection: any, id: any, options?: {}): any;
/** @internal */
export function connectionOf(client: any): any;
/** @type {Clock} @internal */
export const PLATFORM: Clock;
/**
 * A connection to the server, opened at once and reopened if it is lost, and the documents over it.
 * @extends {Emitter<ClientEvents>}
 */
export class Client extends Emitter<ClientEvents> {
    /**
     * @param {Address} address as `ws://127.0.0.1:8080`; a function is called at each attempt, so that it may return a
     * new token, or a promise of an address. If that is rejected, the client tries again
     * @param {ClientOptions} [options]
     */
    constructor(address: Address, options?: ClientOptions | undefined);
    /**
     * The server's address.
     * @returns {Address}
     */
    get address(): Address;
    /** @returns {string} */
    get source(): string;
    /** @returns {ClientState} */
    get state(): ClientState;
    /**
     * Why the client has failed.
     * @returns {Refusal | null}
     */
    get error(): Refusal | null;
    /**
     * Why the last connection, or the last attempt, ended.
     * @returns {Closing | null}
     */
    get closing(): Closing | null;
    /**
     * Whether an edit of any document waits for more than two seconds.
     * @returns {boolean}
     */
    get waiting(): boolean;
    /** Connects, and reconnects if the connection is lost. */
    connect(): void;
    /** Closes the connection. What is submitted from now on is sent after the next `connect`. */
    disconnect(): void;
    /**
     * Closes the connection and all documents for good. Pending edits fail with ERR_CLOSED: they are dropped or, with a
     * storage, kept for the next start.
     * @returns {Promise<void>} is fulfilled when the storage has them
     */
    close(): Promise<void>;
    /**
     * The document of this collection and id, the same object until it is destroyed.
     * @template [T=any]
     * @param {string} collection or the name of a projection, which has some fields only
     * @param {string} id
     * @returns {import('./doc.cjs').Doc<T>}
     */
    document<T = any>(collection: string, id: string): import("./doc.cjs").Doc<T>;
    /**
     * A document at a version.
     * @param {string} collection
     * @param {string} id
     * @param {number | null} [version] the present one by default
     * @returns {Promise<import('./doc.cjs').Snapshot>}
     */
    snapshot(collection: string, id: string, version?: number | null | undefined): Promise<import('./doc.cjs').Snapshot>;
    /**
     * A document at a time of the server's clock.
     * @param {string} collection
     * @param {string} id
     * @param {number | null} [moment] in milliseconds since 1970; the present version without one
     * @returns {Promise<import('./doc.cjs').Snapshot>}
     */
    snapshotAtTime(collection: string, id: string, moment?: number | null | undefined): Promise<import('./doc.cjs').Snapshot>;
    /** @returns {Promise<void>} is fulfilled when nothing is pending in any document */
    whenNothingPending(): Promise<void>;
}
export type Address = string | (() => string | Promise<string>);
export type ClientState = 'connecting' | 'connected' | 'disconnected' | 'failed' | 'closed';
/**
 * Why a connection ended: `full` (the server serves its limit of clients), `going away` (it shuts down, or the client
 * was silent), `refused` (the connection was never open), `forbidden` (the client isn't allowed, and doesn't try
 * again), `no address` (the promise of an address was rejected), `too long` (a message), `out of memory`, `protocol`,
 * `timeout` (no handshake in time), `silent` (no sign of life), `disconnected` (by `disconnect` or `close`), `failed`
 * (the server breaks the protocol), or `lost`.
 */
export type CloseReason = 'full' | 'going away' | 'refused' | 'forbidden' | 'no address' | 'too long' | 'out of memory' | 'protocol' | 'timeout' | 'silent' | 'disconnected' | 'failed' | 'lost';
/**
 * the WebSocket's code, and the server's text
 */
export type Closing = {
    code: number;
    reason: CloseReason;
    text: string;
};
export type ClientEvents = {
    state: ClientState;
    /**
     * a connection, or an attempt, has ended
     */
    close: Closing;
    /**
     * an error that names no document: `state` says whether the client continues. The code
     * ERR_STORAGE says that the storage has failed: the client continues without it
     */
    error: Refusal;
    /**
     * edits of an earlier start, or of a closed tab, were dropped. No document of the
     * application has reported them
     */
    refused: Unsent;
};
export type Unsent = {
    collection: string;
    id: string;
    error: Refusal;
    contents: import('./content.cjs').Content[];
};
/**
 * Where documents and pending edits are kept between starts.
 */
export type ClientStorage = {
    /**
     * the documents that it
     * has, and whether edits of them are pending
     */
    documents: () => Promise<Array<{
        collection: string;
        id: string;
        pending: boolean;
    }>>;
};
export type Clock = {
    /**
     * milliseconds
     */
    now: () => number;
    setTimeout: (action: () => void, delay: number) => any;
    clearTimeout: (timer: any) => void;
};
export type ClientOptions = {
    /**
     * names this client in all its edits. No two clients may share one, and none may be reused
     * after a reload: a number that the server knows is a duplicate. Random by default, and with a storage.
     */
    source?: string | undefined;
    /**
     * the class, if there is no global one
     */
    WebSocket?: any;
    /**
     * false: the client connects only when `connect` is called
     */
    connect?: boolean | undefined;
    /**
     * milliseconds until an attempt without a handshake is given up: 20000
     */
    connectTimeout?: number | undefined;
    /**
     * milliseconds of silence after which a sign of life is requested: 20000
     */
    heartbeat?: number | undefined;
    /**
     * the longest delay before the first reconnect, in milliseconds: 1000. The delay is
     * doubled each time, and shortened at random: the first by up to all of it, the others by up to a half. A connection
     * that lasted for 5 seconds ends the growth
     */
    retryDelay?: number | undefined;
    /**
     * the longest delay: 30000
     */
    longestDelay?: number | undefined;
    /**
     * after this many failures in a row the client ends, with the state 'failed'. A
     * connection that is lost within 5 seconds is a failure too
     */
    mostTries?: number | undefined;
    /**
     * freezes the data of documents, so that a write to them throws: by default if
     * `process.env.NODE_ENV` is 'development'
     */
    freeze?: boolean | undefined;
    /**
     * false: an edit is sent at once if none is in flight. By default the edits of one tick,
     * which no `await` separates, are sent together
     */
    batch?: boolean | undefined;
    /**
     * keeps documents and pending edits between starts. Without it they are lost
     */
    storage?: ClientStorage | undefined;
    /**
     * the timers; those of the platform by default
     */
    clock?: Clock | undefined;
    /**
     * from 0 to below 1, for the delays
     */
    random?: (() => number) | undefined;
};
import { Emitter } from "./emitter.cjs";
import { Refusal } from "./errors.cjs";
