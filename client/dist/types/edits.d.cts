/** Returns the operation that sets a key of an object or replaces an item of a list. */
export function replacement(data: any, path: any, value: any): ({
    p: any;
    ld: null;
    li: import("./ot/component.cjs").Data;
    oi?: undefined;
} | {
    p: any;
    oi: import("./ot/component.cjs").Data;
    ld?: undefined;
    li?: undefined;
})[];
/** Returns the operation that inserts an item into a list or a text into a text. */
export function insertion(data: any, path: any, at: any, value: any): {
    p: any[];
    si: any;
}[] | {
    p: any[];
    li: any;
}[];
/** Returns the operation that removes a key of an object or an item of a list. */
export function removal(path: any): ({
    p: any;
    ld: null;
    od?: undefined;
} | {
    p: any;
    od: null;
    ld?: undefined;
})[];
/** Returns the operation that removes items of a list or a part of a text. */
export function rangeRemoval(data: any, path: any, at: any, count: any): {
    p: any[];
    ld: null;
}[] | {
    p: any[];
    sd: string;
}[];
/** Returns the operation that adds to a number. */
export function addition(path: any, amount: any): {
    p: any;
    na: any;
}[];
/** Returns the operation from the value at a path to what the callback makes of a copy of it. */
export function draftDifference(data: any, path: any, change: any): import("./ot/component.cjs").Operation;
