/**
 * The bucket of a document: the CRC-32 of its id's bytes in UTF-8, as in zlib, modulo the number of buckets. It doesn't
 * depend on the collection, since a projection shows the same document.
 * @param {string} id
 * @param {number} buckets
 * @returns {number}
 */
export function bucketOf(id: string, buckets: number): number;
/**
 * A client of several servers: each document is on the connection of its bucket. A connection is opened when a document
 * or a snapshot needs it, reopened if it is lost, and closed once no document needs it.
 * @extends {Emitter<ClusterEvents>}
 */
export class Cluster extends Emitter<ClusterEvents> {
    /**
     * @param {string | ((bucket: number) => string | Promise<string>)} address of which bucket N has the address
     * `address/b/N`; a function returns the whole address of a bucket, or a promise of it, and is called at each attempt
     * @param {number} buckets how many there are: the same number in all clients
     * @param {ClusterOptions} [options]
     */
    constructor(address: string | ((bucket: number) => string | Promise<string>), buckets: number, options?: ClusterOptions | undefined);
    /**
     * The base address.
     * @returns {string | ((bucket: number) => string | Promise<string>)}
     */
    get address(): string | ((bucket: number) => string | Promise<string>);
    /** @returns {number} */
    get buckets(): number;
    /**
     * The source of the edits in all buckets.
     * @returns {string}
     */
    get source(): string;
    /**
     * The connections in use, by bucket.
     * @returns {BucketState[]}
     */
    get states(): BucketState[];
    /**
     * The first of 'failed', 'disconnected' and 'connecting' that a connection in use has, or else 'connected'.
     * @returns {ClientState}
     */
    get state(): import("./connection.cjs").ClientState;
    /**
     * Why a connection in use has failed.
     * @returns {Refusal | null}
     */
    get error(): Refusal | null;
    /**
     * Why the last connection, or the last attempt, ended.
     * @returns {Closing & {bucket: number} | null}
     */
    get closing(): (import("./connection.cjs").Closing & {
        bucket: number;
    }) | null;
    /**
     * Whether an edit of any document waits for more than two seconds.
     * @returns {boolean}
     */
    get waiting(): boolean;
    /**
     * The bucket of the documents with this id.
     * @param {string} id
     * @returns {number}
     */
    bucketOf(id: string): number;
    /** Connects to the buckets in use, and from now on to those that are needed. */
    connect(): void;
    /** Closes all connections. What is submitted from now on is sent after the next `connect`. */
    disconnect(): void;
    /**
     * Closes all connections and all documents for good. Pending edits fail with ERR_CLOSED: they are dropped or, with a
     * storage, kept for the next start.
     * @returns {Promise<void>} is fulfilled when the storage has them
     */
    close(): Promise<void>;
    /**
     * The document of this collection and id, the same object until it is destroyed.
     * @template [T=any]
     * @param {string} collection or the name of a projection, which has some fields only
     * @param {string} id
     * @returns {import('./doc.cjs').Doc<T>}
     */
    document<T = any>(collection: string, id: string): import("./doc.cjs").Doc<T>;
    /**
     * A document at a version.
     * @param {string} collection
     * @param {string} id
     * @param {number | null} [version] the present one by default
     * @returns {Promise<import('./doc.cjs').Snapshot>}
     */
    snapshot(collection: string, id: string, version?: number | null | undefined): Promise<import('./doc.cjs').Snapshot>;
    /**
     * A document at a time of the clock of its bucket's server.
     * @param {string} collection
     * @param {string} id
     * @param {number | null} [moment] in milliseconds since 1970; the present version without one
     * @returns {Promise<import('./doc.cjs').Snapshot>}
     */
    snapshotAtTime(collection: string, id: string, moment?: number | null | undefined): Promise<import('./doc.cjs').Snapshot>;
    /** @returns {Promise<void>} is fulfilled when nothing is pending in any document */
    whenNothingPending(): Promise<void>;
}
export type ClientState = import('./connection.cjs').ClientState;
export type Closing = import('./connection.cjs').Closing;
/**
 * The connection of a bucket that is in use. `error` says why it has failed, `closing` why the last one ended.
 */
export type BucketState = {
    bucket: number;
    state: ClientState;
    error: Refusal | null;
    closing: Closing | null;
};
/**
 * The events of the connections, with the number of their bucket.
 */
export type ClusterEvents = {
    state: {
        bucket: number;
        state: ClientState;
    };
    /**
     * a connection, or an attempt, has ended
     */
    close: Closing & {
        bucket: number;
    };
    /**
     * an error that names no document
     */
    error: {
        bucket: number;
        error: Refusal;
    };
    /**
     * edits of an earlier start, or of a closed tab, were dropped
     */
    refused: import('./connection.cjs').Unsent;
};
/**
 * `idleDelay`: milliseconds
 *   until a connection without documents is closed: 10000
 */
export type ClusterOptions = import('./connection.cjs').ClientOptions & {
    idleDelay?: number;
};
import { Emitter } from "./emitter.cjs";
import { Refusal } from "./errors.cjs";
