export function has(object: any, key: any): any;
export function isObject(value: any): boolean;
export function notApplied(reason: any): never;
/** @returns {Shape} */
export function shapeOf(component: any): Shape;
export function containerDepth(component: any, shape: any): any;
export function withStep(component: any, depth: any, step: any): any;
export function withLastStep(component: any, step: any): any;
/**
 * Copies a path.
 * @param {any} path
 * @param {string} place for the message of a refusal
 * @returns {Path}
 */
export function readPath(path: any, place: string): Path;
/**
 * Copies a value that a document can hold: null, booleans, whole numbers, texts, lists and objects of these.
 * @param {unknown} value
 * @param {string} [place] for the message of a refusal
 * @param {number} [room] levels
 * @returns {Data}
 */
export function readData(value: unknown, place?: string | undefined, room?: number | undefined): Data;
/**
 * Copies the operation as the server parses it: without other members and without empty texts.
 * @param {unknown} operation
 * @param {number} [most] components
 * @returns {Operation}
 */
export function readOperation(operation: unknown, most?: number | undefined): Operation;
/**
 * Whether a value has at most this many levels.
 * @param {Data} value
 * @param {number} [room]
 * @returns {boolean}
 */
export function isShallow(value: Data, room?: number | undefined): boolean;
/**
 * Freezes a value and what it contains. What is frozen already isn't visited.
 * @param {any} value
 * @returns {any}
 */
export function frozen(value: any): any;
/**
 * Compares two values.
 * @param {Data | undefined} data
 * @param {Data | undefined} other
 * @returns {boolean}
 */
export function isSame(data: Data | undefined, other: Data | undefined): boolean;
/**
 * A value of a document: null, a boolean, a whole number, a text, a list or an object. Numbers are whole, from
 * -9007199254740991 to 9007199254740991.
 * @typedef {null | boolean | number | string | readonly any[] | {[key: string]: any}} Data
 */
/**
 * A value that isn't changed in place, at any depth.
 * @template T
 * @typedef {0 extends (1 & T) ? T : T extends object ? {readonly [Key in keyof T]: Frozen<T[Key]>} : T} Frozen
 */
/**
 * Keys of objects and indices of lists. The last step of `si` and `sd` is an offset in UTF-16 units.
 * @typedef {Array<string | number>} Path
 */
/**
 * One change at one place.
 * @typedef {{p: Path, na: number} | {p: Path, si: string} | {p: Path, sd: string} | {p: Path, li: any} |
 *   {p: Path, ld: any} | {p: Path, ld: any, li: any} | {p: Path, oi: any} | {p: Path, od: any} |
 *   {p: Path, od: any, oi: any}} Component
 */
/**
 * Components that are applied one after the other.
 * @typedef {Component[]} Operation
 */
/** @typedef {'na' | 'si' | 'sd' | 'li' | 'ld' | 'lr' | 'oi' | 'od' | 'or'} Shape */
export const LEFT: "left";
export const RIGHT: "right";
export const MEMBERS: string[];
export const KEYED: Set<string>;
export const REMOVING: Set<string>;
/**
 * A value of a document: null, a boolean, a whole number, a text, a list or an object. Numbers are whole, from
 * -9007199254740991 to 9007199254740991.
 */
export type Data = string | number | boolean | readonly any[] | {
    [key: string]: any;
} | null;
/**
 * A value that isn't changed in place, at any depth.
 */
export type Frozen<T> = 0 extends 1 & T ? T : T extends any ? { readonly [Key in keyof T]: Frozen<T[Key]>; } : T;
/**
 * Keys of objects and indices of lists. The last step of `si` and `sd` is an offset in UTF-16 units.
 */
export type Path = Array<string | number>;
/**
 * One change at one place.
 */
export type Component = {
    p: (string | number)[];
    na: number;
} | {
    p: (string | number)[];
    si: string;
} | {
    p: (string | number)[];
    sd: string;
} | {
    p: (string | number)[];
    li: any;
} | {
    p: (string | number)[];
    ld: any;
} | {
    p: (string | number)[];
    ld: any;
    li: any;
} | {
    p: (string | number)[];
    oi: any;
} | {
    p: (string | number)[];
    od: any;
} | {
    p: (string | number)[];
    od: any;
    oi: any;
};
/**
 * Components that are applied one after the other.
 */
export type Operation = Component[];
export type Shape = 'na' | 'si' | 'sd' | 'li' | 'ld' | 'lr' | 'oi' | 'od' | 'or';
