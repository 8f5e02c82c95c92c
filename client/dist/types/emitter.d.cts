/**
 * Listeners by the name of an event.
 * @module
 */
/**
 * Reports an exception of a listener, which changes nothing else.
 * @param {unknown} error
 */
export function report(error: unknown): void;
/**
 * Emits events one after the other. Those that a listener causes are emitted after all of these.
 * @param {any} emitter
 * @param {Array<[string, any]>} events
 */
export function emitAll(emitter: any, events: Array<[string, any]>): void;
/**
 * Keeps listeners by the name of an event. An exception of a listener is reported, and the others are called.
 * Events are emitted one after the other: an event that a listener causes is emitted after the present one. The state
 * is kept in a closure, so that a proxy of the object works too.
 * @template Events
 */
export class Emitter<Events> {
    /**
     * Calls the listener at each event of this name.
     * @template {keyof Events} Name
     * @param {Name} event
     * @param {(detail: Events[Name]) => void} listener
     * @param {{signal?: AbortSignal}} [options] an aborted signal removes the listener
     * @returns {() => void} removes the listener
     */
    on<Name extends keyof Events>(event: Name, listener: (detail: Events[Name]) => void, options?: {
        signal?: AbortSignal | undefined;
    } | undefined): () => void;
    /**
     * As `on`, for the next event only.
     * @template {keyof Events} Name
     * @param {Name} event
     * @param {(detail: Events[Name]) => void} listener
     * @param {{signal?: AbortSignal}} [options]
     * @returns {() => void} removes the listener
     */
    once<Name_1 extends keyof Events>(event: Name_1, listener: (detail: Events[Name_1]) => void, options?: {
        signal?: AbortSignal | undefined;
    } | undefined): () => void;
    /**
     * Removes a listener, or without one all listeners of the event.
     * @template {keyof Events} Name
     * @param {Name} event
     * @param {(detail: Events[Name]) => void} [listener]
     */
    off<Name_2 extends keyof Events>(event: Name_2, listener?: ((detail: Events[Name_2]) => void) | undefined): void;
    /**
     * Calls the listeners of an event, after those of the events that are being emitted.
     * @template {keyof Events} Name
     * @param {Name} event
     * @param {Events[Name]} detail
     */
    emit<Name_3 extends keyof Events>(event: Name_3, detail: Events[Name_3]): void;
}
