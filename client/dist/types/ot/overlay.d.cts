/**
 * Returns a value without overlays. A later call with the same overlay returns the same object.
 * @param {any} value
 * @returns {any}
 */
export function plain(value: any): any;
export function hasMember(object: any, key: any): any;
export function memberOf(object: any, key: any): any;
export function withMember(object: any, key: any, member: any): Overlay;
export function withoutMember(object: any, key: any): any;
declare class Overlay {
    constructor(base: any, changes: any);
    base: any;
    changes: any;
}
export {};
