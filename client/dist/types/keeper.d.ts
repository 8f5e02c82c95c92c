/** Lists the documents of a storage. */
export function documentsOf(methods: any): Promise<{
    collection: any;
    id: any;
    pending: any;
}[]>;
export class Keeper {
    /**
     * @param {StorageMethods} methods
     * @param {any} connection
     * @param {{front: string, release: () => void} | null} held the only record, if its lock is held
     */
    constructor(methods: StorageMethods, connection: any, held?: {
        front: string;
        release: () => void;
    } | null);
    methods: import("./storage.js").StorageMethods;
    connection: any;
    held: {
        front: string;
        release: () => void;
    } | null;
    /** @type {Map<any, any>} */
    records: Map<any, any>;
    dirty: Set<any>;
    changes: Map<any, any>;
    releases: any[];
    isUrgent: boolean;
    writing: any;
    timer: any;
    apart: Set<any>;
    hasFailed: boolean;
    /** Reads a document of the storage. Until then it isn't loaded, and its connection isn't used. */
    open(core: any): Promise<void>;
    take({ collection, id }: {
        collection: any;
        id: any;
    }): Promise<any>;
    read(front: any, release: any): Promise<any>;
    create(document: any, places: any): Promise<any>;
    letGo(record: any): void;
    /** Looks at a transition of a document, and writes what it has changed. */
    observe(core: any, { seen, replaced }: {
        seen: any;
        replaced: any;
    }): void;
    schedule(): void;
    writeLater(): void;
    writeAll(): Promise<void>;
    write(): Promise<void>;
    add(changes: any): void;
    end({ release }: {
        release: any;
    }, changes: any): void;
    /** The document is closed. Its record stays, if it isn't to be forgotten. */
    leave(core: any, forgets: any): void;
    close(): Promise<void>;
    recover(error: any): Promise<void>;
    giveUp(): Promise<void>;
    /** There is a connection, or a sign of life of it. */
    beat(): void;
    look(): Promise<void>;
    takeOver(front: any, document: any, release: any): void;
}
export type StorageMethods = import('./storage.js').StorageMethods;
