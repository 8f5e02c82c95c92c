// Compiled by package.test.js: a program that uses each call of the client with its types.
import { Client, Cluster, Doc, Emitter, Refusal, apply, bucketOf, complete, compose, cross, invert } from 'navirotsohy';
import { UndoManager, bindText, difference, textChange, transformComponent, transformOffset, transformPosition } from 'navirotsohy';
import { bindText as bindOnly } from 'navirotsohy/bind-text';
import { difference as differenceOnly } from 'navirotsohy/difference';
import { cross as crossOnly } from 'navirotsohy/ot';
import { UndoManager as UndoOnly } from 'navirotsohy/undo';
import { customStorage, indexedDbStorage } from 'navirotsohy';
import type { ClientStorage, StorageMethods } from 'navirotsohy';
import { indexedDbStorage as indexedDbOnly } from 'navirotsohy/storage';
import { folderStorage } from 'navirotsohy/folder-storage';
import { codeMirror } from 'navirotsohy/codemirror';
import { docHook } from 'navirotsohy/react';
import type { BucketState, Closing, Component, Data, DocEvents, Entry, Frozen, Operation, Snapshot, TextBinding } from 'navirotsohy';

interface Card {
  title: string;
  rank: number;
}

interface Board {
  votes: number;
  cards: { [id: string]: Card };
}

const options = { source: 'a', retryDelay: 10, longestDelay: 20, mostTries: 3, connect: false, heartbeat: 5, connectTimeout: 9 };
const client: Client = new Client('ws://127.0.0.1:8080', options);
new Client(async () => 'ws://127.0.0.1:8080', { freeze: true, clock: { now: () => 0, setTimeout, clearTimeout }, random: Math.random });
client.on('state', (state) => state === 'failed');
client.on('close', ({ code, reason, text }: Closing) => [code.toFixed(), reason === 'full', text.length]);
client.once('error', ({ code }) => code === 'ERR_PROTOCOL');
client.off('state');
// @ts-expect-error: no such state
client.on('state', (state) => state === 'gone');
// @ts-expect-error: no such event
client.on('states', () => undefined);

const methods: StorageMethods = {
  keys: async (front) => [front],
  read: async (front) => [[front, '']],
  write: async (changes) => changes.forEach(([key, text]) => key + (text ?? '')),
  lock: async (name) => (name === '' ? null : () => undefined),
};
const storages: ClientStorage[] = [customStorage(methods), indexedDbStorage('a'), indexedDbOnly('b')];
const kept: Client = new Client('ws://127.0.0.1:8080', { storage: storages[0], connect: false });
kept.on('refused', ({ collection, id, error, contents }) => [collection + id, error.code === 'ERR_STORAGE', contents.length]);
export const folder = async (): Promise<void> => {
  const storage = folderStorage('a');
  const [{ collection, id, pending }] = await storage.documents();
  if (pending) await kept.document(collection, id).destroy({ forget: true });
  await kept.close();
  await storage.close();
};
// @ts-expect-error: a method is missing
customStorage({ keys: methods.keys });

const cluster: Cluster = new Cluster('ws://127.0.0.1:8080', 16, { ...options, idleDelay: 10 });
new Cluster((bucket) => `ws://127.0.0.1:8080/b/${bucket.toFixed()}`, 16);
new Cluster(async (bucket) => `ws://127.0.0.1:8080/b/${bucket.toFixed()}`, 16);
cluster.on('state', ({ bucket, state }) => [bucket.toFixed(), state === 'failed']);
cluster.on('close', ({ bucket, code, reason, text }) => [bucket.toFixed(), code.toFixed(), reason === 'full', text.length]);
cluster.on('error', ({ bucket, error }) => [bucket.toFixed(), error.code === 'ERR_PROTOCOL']);
// @ts-expect-error: the argument has a bucket
cluster.on('state', (state) => state === 'failed');
const states: BucketState[] = cluster.states;
const clustered: Doc<Board> = cluster.document<Board>('board', '1');
export const buckets: boolean = cluster.bucketOf(clustered.id) === bucketOf('1', cluster.buckets) && states[0].state === 'connected';

const board: Doc<Board> = client.document<Board>('board', '1');
const other = client.document('board', '2');
board.on('op', ({ operation, source, local, before, data }) => [operation.length, source, local, before.votes, data.votes]);
board.on('restarted', ({ version, data, contents }) => [version, data?.votes, contents.length]);
board.on('refused', ({ error, contents }) => error instanceof Refusal && contents[0].op);
board.on('waiting', ({ waiting }) => (waiting ? 1 : 2), { signal: new AbortController().signal });
const stop: () => void = board.on('load', ({ version }) => version + 1);
stop();
const events: Emitter<DocEvents<Board>> = board;
events.off('change');

export async function main(): Promise<void> {
  await (await board.subscribe()).createIfAbsent({ votes: 0, cards: {} });
  await board.fetch();
  const votes: number | undefined = board.data?.votes;
  // @ts-expect-error: the data are read-only
  if (board.data) board.data.cards.a.rank = 1;
  // @ts-expect-error: there may be no document
  board.data.votes.toFixed();
  const frozen: Frozen<Board> | undefined = board.confirmed;
  const title: string = board.valueAt(['cards', 'a', 'title']) ?? frozen?.cards.a.title ?? other.data.anything;
  // @ts-expect-error: not the document's type
  await board.create({ votes: 'many' });
  const operation: Operation = [{ p: ['votes'], na: votes ?? 1 }, { p: ['cards', 'a'], oi: { title: '', rank: 1 } }];
  const { version } = await board.submit(operation, { source: board });
  if (version !== null) version.toFixed();
  // @ts-expect-error: no such shape
  await board.submit([{ p: ['votes'], lm: 1 }]);
  const set: { version: number | null } = await board.set(['votes'], 3, { source: board });
  await board.insert(['cards', 'a', 'title'], 0, 'text', { source: set });
  await board.removeAt(['cards', 'a'], { source: set });
  await board.removeRange(['cards', 'a', 'title'], 0, 2, { source: set });
  await board.add(['votes'], -1, { source: set });
  await board.change((draft) => { draft.cards.a.title += '!'; delete draft.cards.b; }, { source: set });
  await board.change((card: Card) => { card.rank = 2; }, { path: ['cards', 'a'] });
  await board.change((rank: number) => rank + 1, { path: ['cards', 'a', 'rank'] });
  // @ts-expect-error: not the type of the member
  await board.change((draft) => { draft.votes = 'many'; });
  // @ts-expect-error: a path is no option of remove
  await board.remove(['cards', 'a']);
  await board.submit(difference(['votes'], 1, 2).concat(differenceOnly(['votes'], 2, [3, { x: null }])));
  const undos: UndoManager = new UndoManager(board, { groupBy: 0, limit: 5 });
  undos.on('change', ({ canUndo, canRedo }) => canUndo && canRedo);
  const undone: { version: number | null } = undos.canUndo ? await undos.undo() : await undos.redo();
  new UndoOnly(other).clear();
  const area: HTMLTextAreaElement = document.createElement('textarea');
  const binding: TextBinding = bindText(area, board, ['cards', 'a', 'title'], { undo: undos, refused: (error) => error.code });
  binding.unbind();
  bindOnly(document.createElement('input'), other, ['title']);
  // @ts-expect-error: no field
  bindText(document.createElement('div'), board, ['title']);
  const position: number = transformPosition(1, operation, ['title'], 'right') + transformOffset(1, operation, ['title']);
  area.setSelectionRange(position, position);
  const extension: unknown = codeMirror({}, board, ['cards', 'a', 'title'], { undo: undos, refused: (error) => error.code });
  const useDoc = docHook((subscribe, read) => (subscribe(() => undefined), read()));
  const rendered: string = useDoc(board, ['cards', 'a', 'title']) ?? typeof extension;
  area.value = rendered;
  undos.stop();
  // @ts-expect-error: no such option
  new UndoManager(board, { limits: undone.version });
  const at: Snapshot<Board> = await board.snapshot(3);
  const then: Snapshot<Board> = await board.snapshotAtTime(Date.now());
  const entries: Entry[] = await board.operations(0);
  await client.snapshot('board', '1', at.version + entries.length + (then.data?.votes ?? 0));
  await client.snapshotAtTime('board', '1');
  const made: number = (await other.create([1, { anything: null }])).version;
  await other.remove({ source: made });
  await board.whenNothingPending(() => undefined);
  await client.whenNothingPending();
  await board.unsubscribe();
  await board.destroy({ discard: true });
  board.preventCompose = !board.preventCompose;
  invert(operation, board.data ?? title);
  const waiting: boolean = board.waiting || client.waiting || board.wanted || board.state === 'live';
  const one: Component = operation[0];
  transformComponent(one, one, waiting ? 'left' : 'right').concat(compose(operation, cross(operation, operation).right));
  const data: Data = apply({ t: '' }, textChange(['t'], 'a', 'b', 1));
  crossOnly(invert(operation, data), complete(data, operation).operation);
  transformOffset(1, operation, ['t']);
  client.connect();
  client.disconnect();
  client.close();
}
