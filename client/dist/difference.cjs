/* Navirotsohy 0.1.0, MIT license. Built from client/src by client/tools/build.js: don't edit. */
var __defProp = Object.defineProperty;
var __getOwnPropDesc = Object.getOwnPropertyDescriptor;
var __getOwnPropNames = Object.getOwnPropertyNames;
var __hasOwnProp = Object.prototype.hasOwnProperty;
var __export = (target, all) => {
  for (var name in all)
    __defProp(target, name, { get: all[name], enumerable: true });
};
var __copyProps = (to, from, except, desc) => {
  if (from && typeof from === "object" || typeof from === "function") {
    for (let key of __getOwnPropNames(from))
      if (!__hasOwnProp.call(to, key) && key !== except)
        __defProp(to, key, { get: () => from[key], enumerable: !(desc = __getOwnPropDesc(from, key)) || desc.enumerable });
  }
  return to;
};
var __toCommonJS = (mod) => __copyProps(__defProp({}, "__esModule", { value: true }), mod);

// src/difference.js
var difference_exports = {};
__export(difference_exports, {
  difference: () => difference
});
module.exports = __toCommonJS(difference_exports);

// src/limits.js
var LARGEST = Number.MAX_SAFE_INTEGER;
var LONGEST_PATH = 50;
var MOST_DIFFERENCES = 500;

// src/errors.js
var MESSAGES = {
  ERR_MESSAGE_BADLY_FORMED: "message is badly formed",
  ERR_OT_OP_BADLY_FORMED: "operation is badly formed",
  ERR_DOC_WAS_DELETED: "document was deleted",
  ERR_DOC_ALREADY_CREATED: "document was already created",
  ERR_DOC_DOES_NOT_EXIST: "document does not exist",
  ERR_OT_OP_NOT_APPLIED: "operation can not be applied",
  ERR_CLOSED: "document is closed, or no longer subscribed to",
  ERR_FORBIDDEN: "the server does not admit this client",
  ERR_NOT_LOADED: "document is not loaded: fetch it or subscribe to it first",
  ERR_PROTOCOL: "the other end is no server of documents",
  ERR_SERVER_RESTARTED: "the server was restarted and has lost the document",
  ERR_STORAGE: "the storage has failed",
  ERR_UNREACHABLE: "the server can not be reached"
};
var Refusal = class extends Error {
  /**
   * @param {Code} code
   * @param {string} [message]
   */
  constructor(code, message = MESSAGES[code]) {
    super(message);
    this.name = "Refusal";
    this.code = code;
  }
};
function refusal(code, reason) {
  return new Refusal(code, `${MESSAGES[code]}: ${reason}`);
}
function refuse(code, reason) {
  throw reason === void 0 ? new Refusal(code) : refusal(code, reason);
}

// src/ot/component.js
function has(object, key) {
  return Object.prototype.hasOwnProperty.call(object, key);
}
function isObject(value) {
  return value !== null && typeof value === "object" && !Array.isArray(value);
}
function notApplied(reason) {
  return refuse("ERR_OT_OP_NOT_APPLIED", reason);
}
function isSame(data, other) {
  if (data === other)
    return true;
  if (!data || !other || typeof data !== "object" || typeof other !== "object")
    return false;
  const keys = Object.keys(data);
  if (Array.isArray(data) !== Array.isArray(other) || keys.length !== Object.keys(other).length)
    return false;
  return keys.every((key) => has(other, key) && isSame(data[key], other[key]));
}

// src/ot/halves.js
function isHighHalf(unit) {
  return unit >= 55296 && unit < 56320;
}
function isLowHalf(unit) {
  return unit >= 56320 && unit < 57344;
}

// src/ot/text.js
function commonFront(before, after, most) {
  let length = 0;
  while (length < most && before[length] === after[length])
    length += 1;
  return isHighHalf(before.charCodeAt(length - 1)) ? length - 1 : length;
}
function commonEnd(before, after, most) {
  let length = 0;
  while (length < most && before[before.length - 1 - length] === after[after.length - 1 - length])
    length += 1;
  return isLowHalf(before.charCodeAt(before.length - length)) ? length - 1 : length;
}
function textChange(path, before, after, caret = 0) {
  const shorter = Math.min(before.length, after.length);
  const afterCaret = commonEnd(before, after, Math.min(shorter, after.length - caret));
  const front = commonFront(before, after, shorter - afterCaret);
  const end = commonEnd(before, after, shorter - front);
  const at = [...path, front];
  const removed = before.slice(front, before.length - end);
  const inserted = after.slice(front, after.length - end);
  return [
    ...removed === "" ? [] : [{ p: at, sd: removed }],
    ...inserted === "" ? [] : [{ p: at, si: inserted }]
  ];
}

// src/difference.js
function difference(path, before, after, origins = /* @__PURE__ */ new Map()) {
  const context = { operation: [], origins };
  compare(context, path, before, after);
  return context.operation;
}
function kindOf(value) {
  if (typeof value === "string")
    return "text";
  if (Array.isArray(value))
    return "list";
  return isObject(value) ? "object" : "other";
}
var COMPARISONS = {
  text: ({ operation }, path, before, after) => operation.push(...textChange(path, before, after, after.length)),
  list: compareLists,
  object: compareObjects
};
function compare(context, path, before, after) {
  const kind = kindOf(before);
  if (COMPARISONS[kind] && kind === kindOf(after) && path.length < LONGEST_PATH) {
    COMPARISONS[kind](context, path, before, after);
  } else if (!isSame(before, after)) {
    context.operation.push(...path.length > 0 ? replacementOf(path, before, after) : additionOf(before, after));
  }
}
function replacementOf(p, before, after) {
  return [typeof p[p.length - 1] === "number" ? { p, ld: before, li: after } : { p, od: before, oi: after }];
}
function additionOf(before, after) {
  if (typeof before !== "number" || typeof after !== "number")
    notApplied("a whole document keeps its kind");
  const amount = after - before;
  return (Math.abs(amount) <= LARGEST ? [amount] : [0 - before, after]).map((na) => ({ p: [], na }));
}
function compareObjects(context, path, before, after) {
  for (const key of Object.keys(before)) {
    if (!has(after, key))
      context.operation.push({ p: [...path, key], od: before[key] });
  }
  for (const key of Object.keys(after)) {
    if (!has(before, key))
      context.operation.push({ p: [...path, key], oi: after[key] });
    else if (before[key] !== after[key])
      compare(context, [...path, key], before[key], after[key]);
  }
}
function compareLists(context, path, before, after) {
  const { operation, origins } = context;
  const isCommon = (one, other) => origins.get(other) === one || isSame(one, other);
  let [from, to] = [0, 0];
  for (const [nextFrom, nextTo] of [...commonItems(before, after, isCommon), [before.length, after.length]]) {
    for (; from < nextFrom && to < nextTo; [from, to] = [from + 1, to + 1]) {
      compare(context, [...path, to], before[from], after[to]);
    }
    for (; from < nextFrom; from += 1)
      operation.push({ p: [...path, to], ld: before[from] });
    for (; to < nextTo; to += 1)
      operation.push({ p: [...path, to], li: after[to] });
  }
}
function commonItems(before, after, isCommon) {
  const shorter = Math.min(before.length, after.length);
  let front = 0;
  while (front < shorter && isCommon(before[front], after[front]))
    front += 1;
  let [from, to] = [before.length, after.length];
  while (Math.min(from, to) > front && isCommon(before[from - 1], after[to - 1]))
    [from, to] = [from - 1, to - 1];
  const isCommonBetween = (row, column) => isCommon(before[front + row], after[front + column]);
  const between = commonBetween(from - front, to - front, isCommonBetween);
  return [...between.map(([row, column]) => [front + row, front + column]), [from, to]];
}
function commonBetween(rows, columns, isCommon) {
  const reached = [];
  for (let count = 0; count <= MOST_DIFFERENCES; count += 1) {
    const furthest = [];
    reached.push(furthest);
    for (let diagonal = -count; diagonal <= count; diagonal += 2) {
      let { row } = stepTo(reached, count, diagonal);
      while (row < rows && row - diagonal < columns && isCommon(row, row - diagonal))
        row += 1;
      furthest[diagonal + count] = row;
      if (row >= rows && row - diagonal >= columns)
        return pairsTo(reached, rows, columns);
    }
  }
  return [];
}
function stepTo(reached, count, diagonal) {
  if (count === 0)
    return { row: 0, before: 0 };
  const last = reached[count - 1];
  const [removed, inserted] = [last[diagonal + count - 2], last[diagonal + count]];
  const isInserted = removed === void 0 || removed < inserted;
  return isInserted ? { row: inserted, before: diagonal + 1 } : { row: removed + 1, before: diagonal - 1 };
}
function pairsTo(reached, rows, columns) {
  const pairs = [];
  let row = rows;
  let diagonal = rows - columns;
  for (let count = reached.length - 1; count > 0; count -= 1) {
    const step = stepTo(reached, count, diagonal);
    for (; row > step.row; row -= 1)
      pairs.push([row - 1, row - 1 - diagonal]);
    row = step.before < diagonal ? row - 1 : row;
    diagonal = step.before;
  }
  return pairs.reverse();
}
