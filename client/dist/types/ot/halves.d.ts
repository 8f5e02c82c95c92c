/**
 * Surrogate pairs: offsets count UTF-16 units, and none may be inside a pair.
 * @module
 */
export function isHighHalf(unit: any): boolean;
export function isLowHalf(unit: any): boolean;
export function isInsidePair(text: any, offset: any): boolean;
