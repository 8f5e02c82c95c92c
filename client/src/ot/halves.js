/**
 * Surrogate pairs: offsets count UTF-16 units, and none may be inside a pair.
 * @module
 */

export function isHighHalf(unit) {
  return unit >= 0xd800 && unit < 0xdc00;
}

export function isLowHalf(unit) {
  return unit >= 0xdc00 && unit < 0xe000;
}

export function isInsidePair(text, offset) {
  return isHighHalf(text.charCodeAt(offset - 1)) && isLowHalf(text.charCodeAt(offset));
}
