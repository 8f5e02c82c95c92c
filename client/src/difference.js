/**
 * The difference of two values, as an operation.
 * @module
 */
import { LARGEST, LONGEST_PATH, MOST_DIFFERENCES } from './limits.js';
import { has, isObject, isSame, notApplied } from './ot/component.js';
import { textChange } from './ot/text.js';

/** @typedef {import('./ot/component.js').Data} Data */
/** @typedef {import('./ot/component.js').Path} Path */
/** @typedef {import('./ot/component.js').Component} Component */
/** @typedef {import('./ot/component.js').Operation} Operation */
/** @typedef {{operation: Component[], origins: Map<object, object>}} Context */

/**
 * Returns the smallest operation from one value to another. Texts are compared by their common prefix and suffix, lists
 * by a longest common subsequence, objects by their keys. Other values are replaced.
 * @param {Path} path of the value; an empty one is the whole document
 * @param {Data} before
 * @param {Data} after
 * @param {Map<object, object>} [origins] the item of `before` for each item of `after` that was a copy of it
 * @returns {Operation} empty if the values are equal
 * @throws {Refusal} if no operation leads from one whole document to the other, as from a text to a list
 */
export function difference(path, before, after, origins = new Map()) {
  const context = { operation: [], origins };
  compare(context, path, before, after);
  return context.operation;
}

function kindOf(value) {
  if (typeof value === 'string') return 'text';
  if (Array.isArray(value)) return 'list';
  return isObject(value) ? 'object' : 'other';
}

const COMPARISONS = {
  text: ({ operation }, path, before, after) => operation.push(...textChange(path, before, after, after.length)),
  list: compareLists,
  object: compareObjects,
};

/**
 * Appends the components from one value to another.
 * @param {Context} context
 * @param {Path} path
 * @param {any} before
 * @param {any} after
 */
function compare(context, path, before, after) {
  const kind = kindOf(before);
  if (COMPARISONS[kind] && kind === kindOf(after) && path.length < LONGEST_PATH) {
    COMPARISONS[kind](context, path, before, after);
  } else if (!isSame(before, after)) {
    context.operation.push(...(path.length > 0 ? replacementOf(path, before, after) : additionOf(before, after)));
  }
}

function replacementOf(p, before, after) {
  return [typeof p[p.length - 1] === 'number' ? { p, ld: before, li: after } : { p, od: before, oi: after }];
}

// A whole document isn't replaced. A difference of numbers may exceed the largest number.
function additionOf(before, after) {
  if (typeof before !== 'number' || typeof after !== 'number') notApplied('a whole document keeps its kind');
  const amount = after - before;
  return (Math.abs(amount) <= LARGEST ? [amount] : [0 - before, after]).map((na) => ({ p: [], na }));
}

function compareObjects(context, path, before, after) {
  for (const key of Object.keys(before)) {
    if (!has(after, key)) context.operation.push({ p: [...path, key], od: before[key] });
  }
  for (const key of Object.keys(after)) {
    if (!has(before, key)) context.operation.push({ p: [...path, key], oi: after[key] });
    else if (before[key] !== after[key]) compare(context, [...path, key], before[key], after[key]);
  }
}

// Before each common item, removed and inserted items are paired in their order, and each pair is compared.
function compareLists(context, path, before, after) {
  const { operation, origins } = context;
  const isCommon = (one, other) => origins.get(other) === one || isSame(one, other);
  let [from, to] = [0, 0];
  for (const [nextFrom, nextTo] of [...commonItems(before, after, isCommon), [before.length, after.length]]) {
    for (; from < nextFrom && to < nextTo; [from, to] = [from + 1, to + 1]) {
      compare(context, [...path, to], before[from], after[to]);
    }
    for (; from < nextFrom; from += 1) operation.push({ p: [...path, to], ld: before[from] });
    for (; to < nextTo; to += 1) operation.push({ p: [...path, to], li: after[to] });
  }
}

// Returns the pairs of indices of the common items before which items may be removed or inserted: those of a longest
// common subsequence, and the first one of the common suffix.
function commonItems(before, after, isCommon) {
  const shorter = Math.min(before.length, after.length);
  let front = 0;
  while (front < shorter && isCommon(before[front], after[front])) front += 1;
  let [from, to] = [before.length, after.length];
  while (Math.min(from, to) > front && isCommon(before[from - 1], after[to - 1])) [from, to] = [from - 1, to - 1];
  const isCommonBetween = (row, column) => isCommon(before[front + row], after[front + column]);
  const between = commonBetween(from - front, to - front, isCommonBetween);
  return [...between.map(([row, column]) => [front + row, front + column]), [from, to]];
}

// Returns the pairs of a longest common subsequence (Myers 1986), or none if it needs more than MOST_DIFFERENCES.
// `reached[n]` has the furthest row on each diagonal `row - column` after n removed and inserted items.
function commonBetween(rows, columns, isCommon) {
  const reached = [];
  for (let count = 0; count <= MOST_DIFFERENCES; count += 1) {
    const furthest = [];
    reached.push(furthest);
    for (let diagonal = -count; diagonal <= count; diagonal += 2) {
      let { row } = stepTo(reached, count, diagonal);
      while (row < rows && row - diagonal < columns && isCommon(row, row - diagonal)) row += 1;
      furthest[diagonal + count] = row;
      if (row >= rows && row - diagonal >= columns) return pairsTo(reached, rows, columns);
    }
  }
  return [];
}

// Returns the row at which a diagonal is entered, and the diagonal before it: an item is inserted, or removed.
function stepTo(reached, count, diagonal) {
  if (count === 0) return { row: 0, before: 0 };
  const last = reached[count - 1];
  const [removed, inserted] = [last[diagonal + count - 2], last[diagonal + count]];
  const isInserted = removed === undefined || removed < inserted;
  return isInserted ? { row: inserted, before: diagonal + 1 } : { row: removed + 1, before: diagonal - 1 };
}

// Returns the pairs on the way to the end, which the last count has reached. There are none before the first removed or
// inserted item, since the common prefix is left out.
function pairsTo(reached, rows, columns) {
  const pairs = [];
  let row = rows;
  let diagonal = rows - columns;
  for (let count = reached.length - 1; count > 0; count -= 1) {
    const step = stepTo(reached, count, diagonal);
    for (; row > step.row; row -= 1) pairs.push([row - 1, row - 1 - diagonal]);
    row = step.before < diagonal ? row - 1 : row;
    diagonal = step.before;
  }
  return pairs.reverse();
}
