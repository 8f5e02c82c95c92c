// Compiled by package.test.js: the same types by `require`.
import navirotsohy = require('navirotsohy');
import ot = require('navirotsohy/ot');

const client = new navirotsohy.Client('ws://127.0.0.1:8080', { connect: false });
const doc: navirotsohy.Doc<{ n: number }> = client.document<{ n: number }>('a', 'b');
const operation: navirotsohy.Operation = ot.compose([{ p: ['n'], na: 1 }], []);
doc.submit(operation).catch(({ code }: navirotsohy.Refusal) => code);

import bindings = require('navirotsohy/bind-text');
import differences = require('navirotsohy/difference');
import undos = require('navirotsohy/undo');
import folders = require('navirotsohy/folder-storage');
import storages = require('navirotsohy/storage');

const kept: navirotsohy.ClientStorage[] = [folders.folderStorage('a'), storages.indexedDbStorage('b')];
new navirotsohy.Client('ws://127.0.0.1:8080', { storage: kept[0] }).close().catch(() => kept[1]);

const manager: navirotsohy.UndoManager = new undos.UndoManager(doc, { groupBy: 0 });
const binding: navirotsohy.TextBinding = bindings.bindText(document.createElement('textarea'), doc, ['t'], { undo: manager });
binding.unbind();
doc.submit(differences.difference(['n'], 1, 2)).catch(() => manager.stop());
