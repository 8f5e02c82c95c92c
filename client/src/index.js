/**
 * The client of the Navirotsohy server.
 *
 *     import { Client } from 'navirotsohy';
 *
 *     const client = new Client('ws://127.0.0.1:8080');
 *     const board = client.document('board', 'demo');
 *     await board.subscribe();
 *     await board.createIfAbsent({ votes: 0 });
 *     board.on('change', () => console.log(board.data));
 *     await board.submit([{ p: ['votes'], na: 1 }]);
 * @module
 */
export { bindText } from './bind_text.js';
export { Cluster, bucketOf } from './cluster.js';
export { Client } from './connection.js';
export { difference } from './difference.js';
export { Doc } from './doc.js';
export { Emitter } from './emitter.js';
export { Refusal } from './errors.js';
export { customStorage, indexedDbStorage } from './storage.js';
export { UndoManager } from './undo.js';
export { apply, complete, compose, cross, invert, textChange, transformComponent } from './ot/index.js';
export { transformOffset, transformPosition } from './ot/index.js';

/** @typedef {import('./ot/component.js').Data} Data */
/** @typedef {import('./ot/component.js').Path} Path */
/** @typedef {import('./ot/component.js').Component} Component */
/** @typedef {import('./ot/component.js').Operation} Operation */
/**
 * @template T
 * @typedef {import('./ot/component.js').Frozen<T>} Frozen
 */
/** @typedef {import('./content.js').Content} Content */
/** @typedef {import('./errors.js').Code} Code */
/** @typedef {import('./doc.js').ChangeOptions} ChangeOptions */
/** @typedef {import('./doc.js').Entry} Entry */
/** @typedef {import('./doc.js').DocState} DocState */
/** @typedef {import('./doc.js').Seen} Seen */
/** @typedef {import('./doc.js').SubmitOptions} SubmitOptions */
/** @typedef {import('./bind_text.js').TextBinding} TextBinding */
/** @typedef {import('./bind_text.js').TextBindingOptions} TextBindingOptions */
/** @typedef {import('./undo.js').UndoEvents} UndoEvents */
/** @typedef {import('./undo.js').UndoOptions} UndoOptions */
/** @typedef {import('./cluster.js').BucketState} BucketState */
/** @typedef {import('./cluster.js').ClusterEvents} ClusterEvents */
/** @typedef {import('./cluster.js').ClusterOptions} ClusterOptions */
/** @typedef {import('./connection.js').Clock} Clock */
/** @typedef {import('./connection.js').Closing} Closing */
/** @typedef {import('./connection.js').CloseReason} CloseReason */
/** @typedef {import('./connection.js').ClientEvents} ClientEvents */
/** @typedef {import('./connection.js').ClientOptions} ClientOptions */
/** @typedef {import('./connection.js').ClientState} ClientState */
/** @typedef {import('./connection.js').ClientStorage} ClientStorage */
/** @typedef {import('./connection.js').Unsent} Unsent */
/** @typedef {import('./storage.js').StorageMethods} StorageMethods */
/**
 * @template [T=any]
 * @typedef {import('./doc.js').Snapshot<T>} Snapshot
 */
/**
 * @template [T=any]
 * @typedef {import('./doc.js').DocEvents<T>} DocEvents
 */
