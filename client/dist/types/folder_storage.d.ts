/**
 * Keeps documents in a folder, which is made if it isn't there. `close` lets another storage use the folder before this
 * process ends.
 * @param {string} folder on a local disk
 * @returns {import('./connection.js').ClientStorage & {close: () => Promise<void>}}
 */
export function folderStorage(folder: string): import('./connection.js').ClientStorage & {
    close: () => Promise<void>;
};
