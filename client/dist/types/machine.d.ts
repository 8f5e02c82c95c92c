export function dataOf(snapshot: any): any;
export class Machine {
    /**
     * @param {{collection: string, id: string, source: string, nextNumber: () => number, now: () => number,
     *   freeze?: boolean, batch?: boolean, stores?: boolean}} settings
     */
    constructor({ collection, id, source, nextNumber, now, freeze, batch, stores }: {
        collection: string;
        id: string;
        source: string;
        nextNumber: () => number;
        now: () => number;
        freeze?: boolean;
        batch?: boolean;
        stores?: boolean;
    });
    address: {
        c: string;
        d: string;
    };
    source: string;
    nextNumber: () => number;
    now: () => number;
    freeze: boolean;
    batch: boolean;
    stores: boolean;
    isRestoring: boolean;
    room: number;
    /** @type {State} */
    state: State;
    version: any;
    confirmed: any;
    data: any;
    /** @type {{source: string, seq: number} | null} */
    last: {
        source: string;
        seq: number;
    } | null;
    /** @type {InFlight | null} */
    inFlight: InFlight | null;
    /** @type {Queued[]} */
    queue: Queued[];
    preventCompose: boolean;
    isHeld: boolean;
    arrived: Map<any, any>;
    fetched: {
        version: any;
        data: any;
    } | null;
    wanted: boolean;
    followed: boolean;
    requests: any[];
    delayed: any[];
    isComparing: boolean;
    fetchers: any[];
    subscribers: any[];
    leavers: any[];
    conditions: any[];
    failure: any;
    out: Omit<Transition, "state">;
    /**
     * @param {{type: string, [member: string]: any}} input
     * @returns {Transition}
     * @throws {Refusal} for an edit that is refused here; nothing is changed then
     */
    transition(input: {
        [member: string]: any;
        type: string;
    }): Transition;
    /** The number of own contents that aren't known to be stored. */
    get pending(): number;
    /** The time at which the oldest pending edit was made, or null. */
    get pendingSince(): number | null;
    /** Whether no answer is outstanding. */
    get isQuiet(): boolean;
    /** Whether nothing is outstanding that could change the document. */
    get isSettled(): boolean;
    emit(name: any, detail: any): void;
    /** Returns a document, or a value of one, as a caller receives it. */
    readable(data: any): any;
    emitDocuments(name: any, detail: any, documents: any): void;
    resolve(waiters: any, value: any): void;
    reject(waiters: any, error: any): void;
    send(message: any): void;
    request(kind: any, from: any, purpose: any): void;
    sendRequest(request: any): void;
    ask(from: any, purpose: any): void;
    takeRequest(kind: any): any;
    get willFollow(): boolean;
    get isToChange(): boolean;
    reconcile(): void;
    isNeeded(): boolean;
    begin(): void;
    load(): void;
    catchUp(): void;
    isMissing(): boolean;
    settle(): void;
    rejectWaiting(error: any): void;
    receiveAnswer(message: any): void;
    receiveSnapshot(request: any, snapshot: any): void;
    isVerified({ listed, from }: {
        listed: any;
        from: any;
    }): boolean;
    receiveEnd(request: any): void;
    receiveCompared({ snapshot, error }: {
        snapshot: any;
        error: any;
    }): void;
    receiveError(message: any, error: any): void;
    refuseSubscription(request: any, error: any): void;
    refuseDocument(error: any): void;
    retry({ request, seq }: {
        request: any;
        seq: any;
    }): void;
    isInFlight({ seq, src }: {
        seq: any;
        src: any;
    }): boolean;
    receiveOperation(message: any): void;
    storedAfterAll({ waiters, dropped }: {
        waiters: any;
        dropped: any;
    }, version: any): void;
    get canAdvance(): boolean;
    advance(): void;
    see(entry: any): void;
    isConfirmedBy(before: any, content: any): boolean;
    showOther({ content, source }: {
        content: any;
        source: any;
    }, confirmed: any): void;
    show(data: any, content: any, source: any, local: any): void;
    emitLife(content: any, source: any, before: any, local?: boolean): void;
    emitWhole(before: any): void;
    replaceData(): void;
    useFetched(): void;
    restart(): void;
    heal(error: any): void;
    forgetData(): void;
    takePending(): (Queued | InFlight)[];
    takeUnanswered(): (Queued | InFlight)[];
    /** @returns {any[]} */
    pendingRecords(): any[];
    contents(): any[];
    checkLoaded(): void;
    submit({ content, source, waiter }: {
        content: any;
        source: any;
        waiter: any;
    }): void;
    hold(): void;
    completed(operation: any): {
        content: {
            op: import("./ot/component.js").Operation;
        };
        data: any;
    };
    checkSendable(content: any): void;
    enqueue(content: any, waiter: any): void;
    textOf(content: any, version: any, seq: any, source?: string): string;
    sendNext(): void;
    sendAgain(own: any): void;
    takeFirst({ number, content, waiters, since }: {
        number: any;
        content: any;
        waiters: any;
        since: any;
    }): void;
    dropFrom(at: any): Queued[];
    refused(error: any): void;
    reportDropped(records: any, error: any): void;
    connected(): void;
    disconnected(): void;
    closed(error: any): void;
    restored({ kept }: {
        kept: any;
    }): void;
    /** @param {Kept} kept */
    restore({ version, last, data, log, sent, queue }: Kept): void;
    saved({ text }: {
        text: any;
    }): void;
    resume(): void;
    fetch({ waiter }: {
        waiter: any;
    }): void;
    subscribe({ waiter }: {
        waiter: any;
    }): void;
    unsubscribe({ waiter }: {
        waiter: any;
    }): void;
    list({ from, waiter }: {
        from: any;
        waiter: any;
    }): void;
    until({ holds, begins, waiter }: {
        holds: any;
        begins: any;
        waiter: any;
    }): void;
    discard({ error }: {
        error: any;
    }): void;
    receive({ message, error }: {
        message: any;
        error: any;
    }): void;
}
export type Content = import('./content.js').Content;
export type State = 'offline' | 'idle' | 'loading' | 'verifying' | 'catching up' | 'live' | 'refused' | 'closed';
export type Waiter = {
    resolve: (value?: any) => void;
    reject: (error: Error) => void;
};
export type Request = {
    kind: string;
    from: number | null;
    purpose: string;
    waiters: Waiter[];
    listed: any[];
};
/**
 * An own content that waits. The numbers increase along the queue.
 */
export type Queued = {
    number: number;
    content: Content;
    length: number;
    waiters: Waiter[];
    since: number;
};
/**
 * The own content in flight.
 */
export type InFlight = {
    /**
     * transformed; null if it is dropped
     */
    content: Content | null;
    /**
     * that of an earlier start, if it was restored
     */
    source: string;
    seq: number;
    /**
     * the message
     */
    text: string;
    /**
     * whether the message may be sent
     */
    saved: boolean;
    /**
     * over this connection
     */
    sent: boolean;
    /**
     * the version, if it was acknowledged
     */
    answered: number | null;
    waiters: Waiter[];
    /**
     * the time of the edit
     */
    since: number;
    /**
     * the content, if the server will refuse it
     */
    lost: Content | null;
    /**
     * the contents made on it
     */
    dropped: Queued[];
};
export type Transition = {
    state: State;
    /**
     * to send
     */
    messages: string[];
    /**
     * promises to settle
     */
    settled: Array<() => void>;
    /**
     * to emit
     */
    events: Array<[string, any]>;
    /**
     * inputs that follow after a delay
     */
    retries: Array<object>;
    /**
     * the version of a snapshot to request, for a `compared` input
     */
    comparison: number | null;
    /**
     * of `data`, in their order
     */
    changes: import('./observers.js').Change[];
    /**
     * whether a `release` input follows once the present tick ends
     */
    release: boolean;
    /**
     * the stored operations that were applied to the confirmed document
     */
    seen: Seen[];
    /**
     * whether the confirmed document was replaced before these
     */
    replaced: boolean;
};
export type Seen = {
    version: number;
    source: string;
    seq: number;
    content: Content;
};
/**
 * A document as a storage has it: `log` has the operations stored since `version`.
 */
export type Kept = {
    version: number;
    last: {
        source: string;
        seq: number;
    } | null;
    data?: any;
    log: Seen[];
    /**
     * an `InFlight`
     */
    sent: any;
    /**
     * of `Queued`
     */
    queue: any[];
};
