/* Navirotsohy 0.1.0, MIT license. Built from client/src by client/tools/build.js: don't edit. */
var __defProp = Object.defineProperty;
var __getOwnPropDesc = Object.getOwnPropertyDescriptor;
var __getOwnPropNames = Object.getOwnPropertyNames;
var __hasOwnProp = Object.prototype.hasOwnProperty;
var __export = (target, all) => {
  for (var name in all)
    __defProp(target, name, { get: all[name], enumerable: true });
};
var __copyProps = (to, from, except, desc) => {
  if (from && typeof from === "object" || typeof from === "function") {
    for (let key of __getOwnPropNames(from))
      if (!__hasOwnProp.call(to, key) && key !== except)
        __defProp(to, key, { get: () => from[key], enumerable: !(desc = __getOwnPropDesc(from, key)) || desc.enumerable });
  }
  return to;
};
var __toCommonJS = (mod) => __copyProps(__defProp({}, "__esModule", { value: true }), mod);

// src/ot/index.js
var ot_exports = {};
__export(ot_exports, {
  apply: () => apply,
  complete: () => complete,
  compose: () => compose,
  cross: () => cross,
  invert: () => invert,
  textChange: () => textChange,
  transformComponent: () => transformComponent,
  transformOffset: () => transformOffset,
  transformPosition: () => transformPosition
});
module.exports = __toCommonJS(ot_exports);

// src/errors.js
var MESSAGES = {
  ERR_MESSAGE_BADLY_FORMED: "message is badly formed",
  ERR_OT_OP_BADLY_FORMED: "operation is badly formed",
  ERR_DOC_WAS_DELETED: "document was deleted",
  ERR_DOC_ALREADY_CREATED: "document was already created",
  ERR_DOC_DOES_NOT_EXIST: "document does not exist",
  ERR_OT_OP_NOT_APPLIED: "operation can not be applied",
  ERR_CLOSED: "document is closed, or no longer subscribed to",
  ERR_FORBIDDEN: "the server does not admit this client",
  ERR_NOT_LOADED: "document is not loaded: fetch it or subscribe to it first",
  ERR_PROTOCOL: "the other end is no server of documents",
  ERR_SERVER_RESTARTED: "the server was restarted and has lost the document",
  ERR_STORAGE: "the storage has failed",
  ERR_UNREACHABLE: "the server can not be reached"
};
var Refusal = class extends Error {
  /**
   * @param {Code} code
   * @param {string} [message]
   */
  constructor(code, message = MESSAGES[code]) {
    super(message);
    this.name = "Refusal";
    this.code = code;
  }
};
function refusal(code, reason) {
  return new Refusal(code, `${MESSAGES[code]}: ${reason}`);
}
function refuse(code, reason) {
  throw reason === void 0 ? new Refusal(code) : refusal(code, reason);
}
function orRefusal(action, refused) {
  try {
    return action();
  } catch (error) {
    if (error instanceof Refusal)
      return refused(error);
    throw error;
  }
}
function spelled(value) {
  let text;
  try {
    text = JSON.stringify(value);
  } catch {
    text = void 0;
  }
  if (text === void 0 || typeof value === "number")
    text = String(value);
  return text.length > 60 ? `${text.slice(0, 57)}...` : text;
}

// src/limits.js
var LARGEST = Number.MAX_SAFE_INTEGER;
var DEEPEST = 50;

// src/ot/component.js
var LEFT = "left";
var RIGHT = "right";
var MEMBERS = ["ld", "li", "na", "od", "oi", "sd", "si"];
var SHAPES = { na: "na", si: "si", sd: "sd", li: "li", ld: "ld", ldli: "lr", oi: "oi", od: "od", odoi: "or" };
var KEYED = /* @__PURE__ */ new Set(["oi", "od", "or"]);
var REMOVING = /* @__PURE__ */ new Set(["ld", "lr", "od", "or"]);
function has(object, key) {
  return Object.prototype.hasOwnProperty.call(object, key);
}
function isObject(value) {
  return value !== null && typeof value === "object" && !Array.isArray(value);
}
function notApplied(reason) {
  return refuse("ERR_OT_OP_NOT_APPLIED", reason);
}
function badlyFormed(reason) {
  return refuse("ERR_OT_OP_BADLY_FORMED", reason);
}
function shapeOf(component) {
  let members = "";
  for (const member of MEMBERS)
    if (has(component, member))
      members += member;
  return has(SHAPES, members) ? SHAPES[members] : badlyFormed(`${spelled(component)} has no known members`);
}
function containerDepth(component, shape) {
  return shape === "na" ? component.p.length : component.p.length - 1;
}
function withStep(component, depth, step) {
  if (step > LARGEST)
    notApplied(`the index ${step} is too large`);
  const path = component.p.slice();
  path[depth] = step;
  return { ...component, p: path };
}
function withLastStep(component, step) {
  return withStep(component, component.p.length - 1, step);
}
function isShallow(value, room = DEEPEST) {
  if (value === null || typeof value !== "object")
    return true;
  return room > 0 && Object.keys(value).every((key) => isShallow(value[key], room - 1));
}

// src/ot/halves.js
function isHighHalf(unit) {
  return unit >= 55296 && unit < 56320;
}
function isLowHalf(unit) {
  return unit >= 56320 && unit < 57344;
}
function isInsidePair(text, offset) {
  return isHighHalf(text.charCodeAt(offset - 1)) && isLowHalf(text.charCodeAt(offset));
}

// src/ot/overlay.js
var ABSENT = Symbol("absent");
var MOST_CHANGES = 1e3;
var Overlay = class {
  constructor(base, changes) {
    this.base = base;
    this.changes = changes;
  }
};
function overlayOf(object) {
  return object instanceof Overlay ? object : new Overlay(object, /* @__PURE__ */ new Map());
}
function define(object, key, value) {
  if (key !== "__proto__")
    object[key] = value;
  else
    Object.defineProperty(object, key, { value, configurable: true, enumerable: true, writable: true });
}
function merged({ base, changes }) {
  const whole = { ...base };
  for (const [key, member] of changes) {
    if (member === ABSENT)
      delete whole[key];
    else
      define(whole, key, plain(member));
  }
  return whole;
}
function plain(value) {
  if (!(value instanceof Overlay))
    return value;
  if (value.changes.size > 0)
    Object.assign(value, { base: merged(value), changes: /* @__PURE__ */ new Map() });
  return value.base;
}
function hasMember(object, key) {
  if (!(object instanceof Overlay))
    return has(object, key);
  return object.changes.has(key) ? object.changes.get(key) !== ABSENT : has(object.base, key);
}
function memberOf(object, key) {
  if (!(object instanceof Overlay))
    return object[key];
  return object.changes.has(key) ? object.changes.get(key) : object.base[key];
}
function withMember(object, key, member) {
  const { base, changes } = overlayOf(object);
  const changed = new Overlay(base, new Map(changes).set(key, member));
  if (changed.changes.size > MOST_CHANGES)
    plain(changed);
  return changed;
}
function withoutMember(object, key) {
  return hasMember(object, key) ? withMember(object, key, ABSENT) : object;
}

// src/ot/apply.js
function checkOffset(text, offset) {
  if (typeof text !== "string")
    notApplied("there is no text");
  if (offset > text.length)
    notApplied(`the offset ${offset} exceeds the text's length ${text.length}`);
  if (isInsidePair(text, offset))
    notApplied(`the offset ${offset} is inside a surrogate pair`);
}
function checkItem(list, index, limit) {
  if (!Array.isArray(list))
    notApplied("there is no list");
  if (index >= limit)
    notApplied(`the index ${index} exceeds the list's length ${list.length}`);
}
function checkObject(object) {
  if (!isObject(object))
    notApplied("there is no object");
}
function withItem(list, index, value) {
  const copy = list.slice();
  copy[index] = value;
  return copy;
}
function addNumber(number, { na }) {
  if (typeof number !== "number")
    notApplied("there is no number");
  const sum = number + na;
  return Math.abs(sum) <= LARGEST ? sum : notApplied(`the sum of ${number} and ${na} is too large`);
}
function insertText(text, { si }, offset) {
  checkOffset(text, offset);
  return text.slice(0, offset) + si + text.slice(offset);
}
function deleteText(text, { sd }, offset) {
  checkOffset(text, offset);
  if (!text.startsWith(sd, offset))
    notApplied(`the text at ${offset} isn't ${spelled(sd)}`);
  return text.slice(0, offset) + text.slice(offset + sd.length);
}
function insertItem(list, { li }, index) {
  checkItem(list, index, list && list.length + 1);
  return [...list.slice(0, index), li, ...list.slice(index)];
}
function deleteItem(list, component, index) {
  checkItem(list, index, list && list.length);
  return [...list.slice(0, index), ...list.slice(index + 1)];
}
function replaceItem(list, { li }, index) {
  checkItem(list, index, list && list.length);
  return withItem(list, index, li);
}
function setMember(object, { oi }, key) {
  checkObject(object);
  return withMember(object, key, oi);
}
function removeMember(object, component, key) {
  checkObject(object);
  return withoutMember(object, key);
}
var EFFECTS = {
  na: addNumber,
  si: insertText,
  sd: deleteText,
  li: insertItem,
  ld: deleteItem,
  lr: replaceItem,
  oi: setMember,
  od: removeMember,
  or: setMember
};
function changeAt(value, path, depth, change, from = 0) {
  if (from === depth)
    return change(value);
  const step = path[from];
  if (typeof step === "number") {
    checkItem(value, step, value && value.length);
    return withItem(value, step, plain(changeAt(value[step], path, depth, change, from + 1)));
  }
  if (!isObject(value) || !hasMember(value, step))
    notApplied(`there is no member ${spelled(step)}`);
  return withMember(value, step, changeAt(memberOf(value, step), path, depth, change, from + 1));
}
function applyComponent(data, component) {
  const shape = shapeOf(component);
  const depth = containerDepth(component, shape);
  try {
    return changeAt(data, component.p, depth, (place) => EFFECTS[shape](place, component, component.p[depth]));
  } catch (error) {
    throw error instanceof Refusal ? new Refusal(error.code, `${error.message}, path ${spelled(component.p)}`) : error;
  }
}
function valueAt(data, path, depth) {
  let value = data;
  for (let at = 0; at < depth; at += 1) {
    const step = path[at];
    if (typeof step === "number" ? !Array.isArray(value) : !isObject(value))
      return void 0;
    if (Array.isArray(value) ? !has(value, step) : !hasMember(value, step))
      return void 0;
    value = memberOf(value, step);
  }
  return value;
}
function overlaid(data, operation) {
  return operation.reduce(applyComponent, data);
}
function apply(data, operation) {
  return plain(overlaid(data, operation));
}

// src/ot/transform.js
function shareFront(path, other, length) {
  for (let depth = 0; depth < length; depth += 1)
    if (path[depth] !== other[depth])
      return false;
  return true;
}
function withRemovedAfter(component, other) {
  const member = has(component, "ld") ? "ld" : "od";
  const inside = { ...other, p: other.p.slice(component.p.length) };
  return orRefusal(
    () => ({ ...component, [member]: apply(component[member], [inside]) }),
    () => component
  );
}
function transformBelow(component, other, otherShape, depth) {
  const step = component.p[depth];
  const at = other.p[depth];
  if (typeof step !== typeof at)
    return [component];
  switch (otherShape) {
    case "li":
      return at <= step ? [withStep(component, depth, step + 1)] : [component];
    case "ld":
      if (step === at)
        return [];
      return step > at ? [withStep(component, depth, step - 1)] : [component];
    case "lr":
    case "od":
    case "or":
      return step === at ? [] : [component];
    default:
      return [component];
  }
}
function insertAfterInserted(component, other, step, at, side) {
  const isAfter = step > at || step === at && side === RIGHT;
  return [isAfter ? withLastStep(component, step + 1) : component];
}
function itemAfterInserted(component, other, step, at) {
  return [at <= step ? withLastStep(component, step + 1) : component];
}
function insertAfterDeleted(component, other, step, at) {
  return [step > at ? withLastStep(component, step - 1) : component];
}
function deleteAfterDeleted(component, other, step, at) {
  return step === at ? [] : insertAfterDeleted(component, other, step, at);
}
function replaceAfterDeleted(component, other, step, at) {
  if (step === at)
    return [{ p: component.p, li: component.li }];
  return insertAfterDeleted(component, other, step, at);
}
function deleteAfterReplaced(component, other, step, at) {
  return step === at ? [] : [component];
}
function replaceAfterReplaced(component, other, step, at, side) {
  if (step !== at)
    return [component];
  return side === LEFT ? [{ p: component.p, ld: other.li, li: component.li }] : [];
}
function putAfterPut(component, other, key, otherKey, side) {
  if (key !== otherKey)
    return [component];
  return side === LEFT ? [{ p: component.p, od: other.oi, oi: component.oi }] : [];
}
function removeAfterGone(component, other, key, otherKey) {
  return key === otherKey ? [] : [component];
}
function replaceAfterRemoved(component, other, key, otherKey) {
  return [key === otherKey ? { p: component.p, oi: component.oi } : component];
}
function textAfterInsert(component, other, offset, at, side) {
  const isAfter = at < offset || at === offset && side === RIGHT;
  return [isAfter ? withLastStep(component, offset + other.si.length) : component];
}
function textAfterDelete(component, other, offset, at) {
  if (offset <= at)
    return [component];
  return [withLastStep(component, Math.max(at, offset - other.sd.length))];
}
function cut(text, from, to) {
  for (const offset of [from, to]) {
    if (isInsidePair(text, offset))
      notApplied(`${spelled(text)} would be cut inside a surrogate pair`);
  }
  return text.slice(from, to);
}
function deleteAfterInsert(component, other, offset, at) {
  const text = component.sd;
  if (at <= offset)
    return [withLastStep(component, offset + other.si.length)];
  if (at >= offset + text.length)
    return [component];
  const front = { ...component, sd: cut(text, 0, at - offset) };
  const rest = { ...component, sd: cut(text, at - offset, text.length) };
  return [front, withLastStep(rest, offset + other.si.length)];
}
function deleteAfterDelete(component, other, offset, at) {
  const text = component.sd;
  const otherEnd = at + other.sd.length;
  if (offset >= otherEnd)
    return [withLastStep(component, offset - other.sd.length)];
  if (offset + text.length <= at)
    return [component];
  const before = at > offset ? cut(text, 0, at - offset) : "";
  const after = offset + text.length > otherEnd ? cut(text, otherEnd - offset, text.length) : "";
  const left = before + after;
  return left === "" ? [] : [withLastStep({ ...component, sd: left }, Math.min(offset, at))];
}
var BESIDE = {
  li: { li: insertAfterInserted, ld: itemAfterInserted, lr: itemAfterInserted },
  ld: { li: insertAfterDeleted, ld: deleteAfterDeleted, lr: replaceAfterDeleted },
  lr: { ld: deleteAfterReplaced, lr: replaceAfterReplaced },
  oi: { oi: putAfterPut, or: putAfterPut },
  od: { od: removeAfterGone, or: replaceAfterRemoved },
  or: { oi: putAfterPut, or: putAfterPut, od: removeAfterGone },
  si: { si: textAfterInsert, sd: deleteAfterInsert },
  sd: { si: textAfterDelete, sd: deleteAfterDelete },
  na: {}
};
function transformComponent(component, other, side) {
  const shape = shapeOf(component);
  const otherShape = shapeOf(other);
  const depth = containerDepth(component, shape);
  const otherDepth = containerDepth(other, otherShape);
  if (REMOVING.has(shape) && otherDepth > depth && shareFront(component.p, other.p, depth + 1)) {
    return [withRemovedAfter(component, other)];
  }
  if (depth < otherDepth || !shareFront(component.p, other.p, otherDepth))
    return [component];
  if (depth > otherDepth)
    return transformBelow(component, other, otherShape, otherDepth);
  const rule = BESIDE[otherShape][shape];
  return rule ? rule(component, other, component.p[depth], other.p[depth], side) : [component];
}
function crossOne(left, right) {
  if (right.length !== 1)
    return cross([left], right);
  return {
    left: transformComponent(left, right[0], LEFT),
    right: transformComponent(right[0], left, RIGHT)
  };
}
function crossRow(left, component) {
  const crossed = [];
  let right = [component];
  for (const one of left) {
    if (right.length === 0) {
      crossed.push(one);
    } else {
      const both = crossOne(one, right);
      crossed.push(...both.left);
      right = both.right;
    }
  }
  return { left: crossed, right };
}
function cross(left, right) {
  let rest = left;
  const crossed = [];
  for (const component of right) {
    const both = crossRow(rest, component);
    rest = both.left;
    crossed.push(...both.right);
  }
  return { left: rest, right: crossed };
}

// src/ot/compose.js
function mergeNumbers(last, next) {
  const sum = last.na + next.na;
  return Math.abs(sum) <= LARGEST ? [{ p: last.p, na: sum }] : null;
}
function mergeInserts(last, next, at, offset) {
  if (offset < at || offset > at + last.si.length)
    return null;
  return [{ p: last.p, si: insertText(last.si, next, offset - at) }];
}
function mergeDeletes(last, next, at, offset) {
  if (offset === at)
    return [{ p: last.p, sd: last.sd + next.sd }];
  return offset + next.sd.length === at ? [{ p: next.p, sd: next.sd + last.sd }] : null;
}
function mergeInsertDelete(last, next, at, offset) {
  if (offset < at || offset + next.sd.length > at + last.si.length)
    return null;
  const left = deleteText(last.si, next, offset - at);
  return left === "" ? [] : [{ p: last.p, si: left }];
}
var MERGES = {
  na: { na: mergeNumbers },
  si: { si: mergeInserts, sd: mergeInsertDelete },
  sd: { sd: mergeDeletes }
};
function merge(last, next) {
  const shape = shapeOf(last);
  const nextShape = shapeOf(next);
  const rule = MERGES[shape] && MERGES[shape][nextShape];
  const depth = containerDepth(last, shape);
  if (!rule || depth !== containerDepth(next, nextShape) || !shareFront(last.p, next.p, depth))
    return null;
  return rule(last, next, last.p[depth], next.p[depth]);
}
function compose(first, second) {
  const composed = first.slice();
  for (const component of second) {
    const last = composed.pop();
    const merged2 = last === void 0 ? [component] : merge(last, component) || [last, component];
    composed.push(...merged2);
  }
  return composed;
}

// src/ot/invert.js
function removable(value) {
  const removed = plain(value);
  return isShallow(removed) ? removed : null;
}
function completeComponent(data, component, shape) {
  const depth = containerDepth(component, shape);
  const place = valueAt(data, component.p, depth);
  const last = component.p[depth];
  if (shape === "ld" || shape === "lr") {
    return Array.isArray(place) && has(place, last) ? { ...component, ld: removable(place[last]) } : component;
  }
  if (!KEYED.has(shape) || !isObject(place))
    return component;
  const { p, oi } = component;
  if (!hasMember(place, last))
    return shape === "od" ? null : { p, oi };
  const od = removable(memberOf(place, last));
  return shape === "od" ? { p, od } : { p, od, oi };
}
function completeOverlaid(data, operation) {
  const completed = [];
  let present = data;
  for (const component of operation) {
    const one = completeComponent(present, component, shapeOf(component));
    if (one !== null) {
      present = applyComponent(present, one);
      completed.push(one);
    }
  }
  return { operation: completed, data: present };
}
function complete(data, operation) {
  const completed = completeOverlaid(data, operation);
  return { operation: completed.operation, data: plain(completed.data) };
}
var INVERSES = {
  na: ({ p, na }) => ({ p, na: 0 - na }),
  si: ({ p, si }) => ({ p, sd: si }),
  sd: ({ p, sd }) => ({ p, si: sd }),
  li: ({ p, li }) => ({ p, ld: li }),
  ld: ({ p }, old) => ({ p, li: old }),
  lr: ({ p, li }, old) => ({ p, ld: li, li: old }),
  oi: ({ p, oi }) => ({ p, od: oi }),
  od: ({ p }, old) => ({ p, oi: old }),
  or: ({ p, oi }, old) => ({ p, od: oi, oi: old })
};
function invert(operation, before) {
  const inverse = [];
  let present = before;
  for (const component of operation) {
    const one = completeComponent(present, component, shapeOf(component));
    if (one !== null) {
      const next = applyComponent(present, one);
      const shape = shapeOf(one);
      inverse.push(INVERSES[shape](one, shape === "na" ? void 0 : plain(valueAt(present, one.p, one.p.length))));
      present = next;
    }
  }
  return inverse.reverse();
}

// src/ot/text.js
function commonFront(before, after, most) {
  let length = 0;
  while (length < most && before[length] === after[length])
    length += 1;
  return isHighHalf(before.charCodeAt(length - 1)) ? length - 1 : length;
}
function commonEnd(before, after, most) {
  let length = 0;
  while (length < most && before[before.length - 1 - length] === after[after.length - 1 - length])
    length += 1;
  return isLowHalf(before.charCodeAt(before.length - length)) ? length - 1 : length;
}
function textChange(path, before, after, caret = 0) {
  const shorter = Math.min(before.length, after.length);
  const afterCaret = commonEnd(before, after, Math.min(shorter, after.length - caret));
  const front = commonFront(before, after, shorter - afterCaret);
  const end = commonEnd(before, after, shorter - front);
  const at = [...path, front];
  const removed = before.slice(front, before.length - end);
  const inserted = after.slice(front, after.length - end);
  return [
    ...removed === "" ? [] : [{ p: at, sd: removed }],
    ...inserted === "" ? [] : [{ p: at, si: inserted }]
  ];
}
function caretAfter(p, operation, side) {
  let carets = [{ p, si: "" }];
  for (const component of operation) {
    carets = carets.flatMap((caret) => transformComponent(caret, component, side));
  }
  return carets.length === 0 ? null : carets[0].p;
}
function transformPosition(position, operation, path, side) {
  const after = caretAfter([...path, position], operation, side);
  return after === null ? 0 : (
    /** @type {number} */
    after[after.length - 1]
  );
}
function transformOffset(offset, operation, path) {
  return transformPosition(offset, operation, path, LEFT);
}
