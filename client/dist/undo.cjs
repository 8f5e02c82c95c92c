/* Navirotsohy 0.1.0, MIT license. Built from client/src by client/tools/build.js: don't edit. */
var __defProp = Object.defineProperty;
var __getOwnPropDesc = Object.getOwnPropertyDescriptor;
var __getOwnPropNames = Object.getOwnPropertyNames;
var __hasOwnProp = Object.prototype.hasOwnProperty;
var __export = (target, all) => {
  for (var name in all)
    __defProp(target, name, { get: all[name], enumerable: true });
};
var __copyProps = (to, from, except, desc) => {
  if (from && typeof from === "object" || typeof from === "function") {
    for (let key of __getOwnPropNames(from))
      if (!__hasOwnProp.call(to, key) && key !== except)
        __defProp(to, key, { get: () => from[key], enumerable: !(desc = __getOwnPropDesc(from, key)) || desc.enumerable });
  }
  return to;
};
var __toCommonJS = (mod) => __copyProps(__defProp({}, "__esModule", { value: true }), mod);

// src/undo.js
var undo_exports = {};
__export(undo_exports, {
  UndoManager: () => UndoManager
});
module.exports = __toCommonJS(undo_exports);

// src/errors.js
var MESSAGES = {
  ERR_MESSAGE_BADLY_FORMED: "message is badly formed",
  ERR_OT_OP_BADLY_FORMED: "operation is badly formed",
  ERR_DOC_WAS_DELETED: "document was deleted",
  ERR_DOC_ALREADY_CREATED: "document was already created",
  ERR_DOC_DOES_NOT_EXIST: "document does not exist",
  ERR_OT_OP_NOT_APPLIED: "operation can not be applied",
  ERR_CLOSED: "document is closed, or no longer subscribed to",
  ERR_FORBIDDEN: "the server does not admit this client",
  ERR_NOT_LOADED: "document is not loaded: fetch it or subscribe to it first",
  ERR_PROTOCOL: "the other end is no server of documents",
  ERR_SERVER_RESTARTED: "the server was restarted and has lost the document",
  ERR_STORAGE: "the storage has failed",
  ERR_UNREACHABLE: "the server can not be reached"
};
var Refusal = class extends Error {
  /**
   * @param {Code} code
   * @param {string} [message]
   */
  constructor(code, message = MESSAGES[code]) {
    super(message);
    this.name = "Refusal";
    this.code = code;
  }
};
function refusal(code, reason) {
  return new Refusal(code, `${MESSAGES[code]}: ${reason}`);
}
function refuse(code, reason) {
  throw reason === void 0 ? new Refusal(code) : refusal(code, reason);
}
function orRefusal(action, refused) {
  try {
    return action();
  } catch (error) {
    if (error instanceof Refusal)
      return refused(error);
    throw error;
  }
}
function spelled(value) {
  let text;
  try {
    text = JSON.stringify(value);
  } catch {
    text = void 0;
  }
  if (text === void 0 || typeof value === "number")
    text = String(value);
  return text.length > 60 ? `${text.slice(0, 57)}...` : text;
}

// src/limits.js
var LARGEST = Number.MAX_SAFE_INTEGER;
var DEEPEST = 50;
var MOST_COMPOSED = 64;
var LONGEST_COMPOSED = 65536;

// src/ot/component.js
var LEFT = "left";
var RIGHT = "right";
var MEMBERS = ["ld", "li", "na", "od", "oi", "sd", "si"];
var SHAPES = { na: "na", si: "si", sd: "sd", li: "li", ld: "ld", ldli: "lr", oi: "oi", od: "od", odoi: "or" };
var KEYED = /* @__PURE__ */ new Set(["oi", "od", "or"]);
var REMOVING = /* @__PURE__ */ new Set(["ld", "lr", "od", "or"]);
function has(object, key) {
  return Object.prototype.hasOwnProperty.call(object, key);
}
function isObject(value) {
  return value !== null && typeof value === "object" && !Array.isArray(value);
}
function notApplied(reason) {
  return refuse("ERR_OT_OP_NOT_APPLIED", reason);
}
function badlyFormed(reason) {
  return refuse("ERR_OT_OP_BADLY_FORMED", reason);
}
function shapeOf(component) {
  let members = "";
  for (const member of MEMBERS)
    if (has(component, member))
      members += member;
  return has(SHAPES, members) ? SHAPES[members] : badlyFormed(`${spelled(component)} has no known members`);
}
function containerDepth(component, shape) {
  return shape === "na" ? component.p.length : component.p.length - 1;
}
function withStep(component, depth, step) {
  if (step > LARGEST)
    notApplied(`the index ${step} is too large`);
  const path = component.p.slice();
  path[depth] = step;
  return { ...component, p: path };
}
function withLastStep(component, step) {
  return withStep(component, component.p.length - 1, step);
}
function isShallow(value, room = DEEPEST) {
  if (value === null || typeof value !== "object")
    return true;
  return room > 0 && Object.keys(value).every((key) => isShallow(value[key], room - 1));
}

// src/ot/halves.js
function isHighHalf(unit) {
  return unit >= 55296 && unit < 56320;
}
function isLowHalf(unit) {
  return unit >= 56320 && unit < 57344;
}
function isInsidePair(text, offset) {
  return isHighHalf(text.charCodeAt(offset - 1)) && isLowHalf(text.charCodeAt(offset));
}

// src/ot/overlay.js
var ABSENT = Symbol("absent");
var MOST_CHANGES = 1e3;
var Overlay = class {
  constructor(base, changes) {
    this.base = base;
    this.changes = changes;
  }
};
function overlayOf(object) {
  return object instanceof Overlay ? object : new Overlay(object, /* @__PURE__ */ new Map());
}
function define(object, key, value) {
  if (key !== "__proto__")
    object[key] = value;
  else
    Object.defineProperty(object, key, { value, configurable: true, enumerable: true, writable: true });
}
function merged({ base, changes }) {
  const whole = { ...base };
  for (const [key, member] of changes) {
    if (member === ABSENT)
      delete whole[key];
    else
      define(whole, key, plain(member));
  }
  return whole;
}
function plain(value) {
  if (!(value instanceof Overlay))
    return value;
  if (value.changes.size > 0)
    Object.assign(value, { base: merged(value), changes: /* @__PURE__ */ new Map() });
  return value.base;
}
function hasMember(object, key) {
  if (!(object instanceof Overlay))
    return has(object, key);
  return object.changes.has(key) ? object.changes.get(key) !== ABSENT : has(object.base, key);
}
function memberOf(object, key) {
  if (!(object instanceof Overlay))
    return object[key];
  return object.changes.has(key) ? object.changes.get(key) : object.base[key];
}
function withMember(object, key, member) {
  const { base, changes } = overlayOf(object);
  const changed = new Overlay(base, new Map(changes).set(key, member));
  if (changed.changes.size > MOST_CHANGES)
    plain(changed);
  return changed;
}
function withoutMember(object, key) {
  return hasMember(object, key) ? withMember(object, key, ABSENT) : object;
}

// src/ot/apply.js
function checkOffset(text, offset) {
  if (typeof text !== "string")
    notApplied("there is no text");
  if (offset > text.length)
    notApplied(`the offset ${offset} exceeds the text's length ${text.length}`);
  if (isInsidePair(text, offset))
    notApplied(`the offset ${offset} is inside a surrogate pair`);
}
function checkItem(list, index, limit) {
  if (!Array.isArray(list))
    notApplied("there is no list");
  if (index >= limit)
    notApplied(`the index ${index} exceeds the list's length ${list.length}`);
}
function checkObject(object) {
  if (!isObject(object))
    notApplied("there is no object");
}
function withItem(list, index, value) {
  const copy = list.slice();
  copy[index] = value;
  return copy;
}
function addNumber(number, { na }) {
  if (typeof number !== "number")
    notApplied("there is no number");
  const sum = number + na;
  return Math.abs(sum) <= LARGEST ? sum : notApplied(`the sum of ${number} and ${na} is too large`);
}
function insertText(text, { si }, offset) {
  checkOffset(text, offset);
  return text.slice(0, offset) + si + text.slice(offset);
}
function deleteText(text, { sd }, offset) {
  checkOffset(text, offset);
  if (!text.startsWith(sd, offset))
    notApplied(`the text at ${offset} isn't ${spelled(sd)}`);
  return text.slice(0, offset) + text.slice(offset + sd.length);
}
function insertItem(list, { li }, index) {
  checkItem(list, index, list && list.length + 1);
  return [...list.slice(0, index), li, ...list.slice(index)];
}
function deleteItem(list, component, index) {
  checkItem(list, index, list && list.length);
  return [...list.slice(0, index), ...list.slice(index + 1)];
}
function replaceItem(list, { li }, index) {
  checkItem(list, index, list && list.length);
  return withItem(list, index, li);
}
function setMember(object, { oi }, key) {
  checkObject(object);
  return withMember(object, key, oi);
}
function removeMember(object, component, key) {
  checkObject(object);
  return withoutMember(object, key);
}
var EFFECTS = {
  na: addNumber,
  si: insertText,
  sd: deleteText,
  li: insertItem,
  ld: deleteItem,
  lr: replaceItem,
  oi: setMember,
  od: removeMember,
  or: setMember
};
function changeAt(value, path, depth, change, from = 0) {
  if (from === depth)
    return change(value);
  const step = path[from];
  if (typeof step === "number") {
    checkItem(value, step, value && value.length);
    return withItem(value, step, plain(changeAt(value[step], path, depth, change, from + 1)));
  }
  if (!isObject(value) || !hasMember(value, step))
    notApplied(`there is no member ${spelled(step)}`);
  return withMember(value, step, changeAt(memberOf(value, step), path, depth, change, from + 1));
}
function applyComponent(data, component) {
  const shape = shapeOf(component);
  const depth = containerDepth(component, shape);
  try {
    return changeAt(data, component.p, depth, (place) => EFFECTS[shape](place, component, component.p[depth]));
  } catch (error) {
    throw error instanceof Refusal ? new Refusal(error.code, `${error.message}, path ${spelled(component.p)}`) : error;
  }
}
function valueAt(data, path, depth) {
  let value = data;
  for (let at = 0; at < depth; at += 1) {
    const step = path[at];
    if (typeof step === "number" ? !Array.isArray(value) : !isObject(value))
      return void 0;
    if (Array.isArray(value) ? !has(value, step) : !hasMember(value, step))
      return void 0;
    value = memberOf(value, step);
  }
  return value;
}
function overlaid(data, operation) {
  return operation.reduce(applyComponent, data);
}
function apply(data, operation) {
  return plain(overlaid(data, operation));
}

// src/ot/invert.js
function removable(value) {
  const removed = plain(value);
  return isShallow(removed) ? removed : null;
}
function completeComponent(data, component, shape) {
  const depth = containerDepth(component, shape);
  const place = valueAt(data, component.p, depth);
  const last = component.p[depth];
  if (shape === "ld" || shape === "lr") {
    return Array.isArray(place) && has(place, last) ? { ...component, ld: removable(place[last]) } : component;
  }
  if (!KEYED.has(shape) || !isObject(place))
    return component;
  const { p, oi } = component;
  if (!hasMember(place, last))
    return shape === "od" ? null : { p, oi };
  const od = removable(memberOf(place, last));
  return shape === "od" ? { p, od } : { p, od, oi };
}
var INVERSES = {
  na: ({ p, na }) => ({ p, na: 0 - na }),
  si: ({ p, si }) => ({ p, sd: si }),
  sd: ({ p, sd }) => ({ p, si: sd }),
  li: ({ p, li }) => ({ p, ld: li }),
  ld: ({ p }, old) => ({ p, li: old }),
  lr: ({ p, li }, old) => ({ p, ld: li, li: old }),
  oi: ({ p, oi }) => ({ p, od: oi }),
  od: ({ p }, old) => ({ p, oi: old }),
  or: ({ p, oi }, old) => ({ p, od: oi, oi: old })
};
function invert(operation, before) {
  const inverse = [];
  let present = before;
  for (const component of operation) {
    const one = completeComponent(present, component, shapeOf(component));
    if (one !== null) {
      const next = applyComponent(present, one);
      const shape = shapeOf(one);
      inverse.push(INVERSES[shape](one, shape === "na" ? void 0 : plain(valueAt(present, one.p, one.p.length))));
      present = next;
    }
  }
  return inverse.reverse();
}

// src/ot/transform.js
function shareFront(path, other, length) {
  for (let depth = 0; depth < length; depth += 1)
    if (path[depth] !== other[depth])
      return false;
  return true;
}
function withRemovedAfter(component, other) {
  const member = has(component, "ld") ? "ld" : "od";
  const inside = { ...other, p: other.p.slice(component.p.length) };
  return orRefusal(
    () => ({ ...component, [member]: apply(component[member], [inside]) }),
    () => component
  );
}
function transformBelow(component, other, otherShape, depth) {
  const step = component.p[depth];
  const at = other.p[depth];
  if (typeof step !== typeof at)
    return [component];
  switch (otherShape) {
    case "li":
      return at <= step ? [withStep(component, depth, step + 1)] : [component];
    case "ld":
      if (step === at)
        return [];
      return step > at ? [withStep(component, depth, step - 1)] : [component];
    case "lr":
    case "od":
    case "or":
      return step === at ? [] : [component];
    default:
      return [component];
  }
}
function insertAfterInserted(component, other, step, at, side) {
  const isAfter = step > at || step === at && side === RIGHT;
  return [isAfter ? withLastStep(component, step + 1) : component];
}
function itemAfterInserted(component, other, step, at) {
  return [at <= step ? withLastStep(component, step + 1) : component];
}
function insertAfterDeleted(component, other, step, at) {
  return [step > at ? withLastStep(component, step - 1) : component];
}
function deleteAfterDeleted(component, other, step, at) {
  return step === at ? [] : insertAfterDeleted(component, other, step, at);
}
function replaceAfterDeleted(component, other, step, at) {
  if (step === at)
    return [{ p: component.p, li: component.li }];
  return insertAfterDeleted(component, other, step, at);
}
function deleteAfterReplaced(component, other, step, at) {
  return step === at ? [] : [component];
}
function replaceAfterReplaced(component, other, step, at, side) {
  if (step !== at)
    return [component];
  return side === LEFT ? [{ p: component.p, ld: other.li, li: component.li }] : [];
}
function putAfterPut(component, other, key, otherKey, side) {
  if (key !== otherKey)
    return [component];
  return side === LEFT ? [{ p: component.p, od: other.oi, oi: component.oi }] : [];
}
function removeAfterGone(component, other, key, otherKey) {
  return key === otherKey ? [] : [component];
}
function replaceAfterRemoved(component, other, key, otherKey) {
  return [key === otherKey ? { p: component.p, oi: component.oi } : component];
}
function textAfterInsert(component, other, offset, at, side) {
  const isAfter = at < offset || at === offset && side === RIGHT;
  return [isAfter ? withLastStep(component, offset + other.si.length) : component];
}
function textAfterDelete(component, other, offset, at) {
  if (offset <= at)
    return [component];
  return [withLastStep(component, Math.max(at, offset - other.sd.length))];
}
function cut(text, from, to) {
  for (const offset of [from, to]) {
    if (isInsidePair(text, offset))
      notApplied(`${spelled(text)} would be cut inside a surrogate pair`);
  }
  return text.slice(from, to);
}
function deleteAfterInsert(component, other, offset, at) {
  const text = component.sd;
  if (at <= offset)
    return [withLastStep(component, offset + other.si.length)];
  if (at >= offset + text.length)
    return [component];
  const front = { ...component, sd: cut(text, 0, at - offset) };
  const rest = { ...component, sd: cut(text, at - offset, text.length) };
  return [front, withLastStep(rest, offset + other.si.length)];
}
function deleteAfterDelete(component, other, offset, at) {
  const text = component.sd;
  const otherEnd = at + other.sd.length;
  if (offset >= otherEnd)
    return [withLastStep(component, offset - other.sd.length)];
  if (offset + text.length <= at)
    return [component];
  const before = at > offset ? cut(text, 0, at - offset) : "";
  const after = offset + text.length > otherEnd ? cut(text, otherEnd - offset, text.length) : "";
  const left = before + after;
  return left === "" ? [] : [withLastStep({ ...component, sd: left }, Math.min(offset, at))];
}
var BESIDE = {
  li: { li: insertAfterInserted, ld: itemAfterInserted, lr: itemAfterInserted },
  ld: { li: insertAfterDeleted, ld: deleteAfterDeleted, lr: replaceAfterDeleted },
  lr: { ld: deleteAfterReplaced, lr: replaceAfterReplaced },
  oi: { oi: putAfterPut, or: putAfterPut },
  od: { od: removeAfterGone, or: replaceAfterRemoved },
  or: { oi: putAfterPut, or: putAfterPut, od: removeAfterGone },
  si: { si: textAfterInsert, sd: deleteAfterInsert },
  sd: { si: textAfterDelete, sd: deleteAfterDelete },
  na: {}
};
function transformComponent(component, other, side) {
  const shape = shapeOf(component);
  const otherShape = shapeOf(other);
  const depth = containerDepth(component, shape);
  const otherDepth = containerDepth(other, otherShape);
  if (REMOVING.has(shape) && otherDepth > depth && shareFront(component.p, other.p, depth + 1)) {
    return [withRemovedAfter(component, other)];
  }
  if (depth < otherDepth || !shareFront(component.p, other.p, otherDepth))
    return [component];
  if (depth > otherDepth)
    return transformBelow(component, other, otherShape, otherDepth);
  const rule = BESIDE[otherShape][shape];
  return rule ? rule(component, other, component.p[depth], other.p[depth], side) : [component];
}
function crossOne(left, right) {
  if (right.length !== 1)
    return cross([left], right);
  return {
    left: transformComponent(left, right[0], LEFT),
    right: transformComponent(right[0], left, RIGHT)
  };
}
function crossRow(left, component) {
  const crossed = [];
  let right = [component];
  for (const one of left) {
    if (right.length === 0) {
      crossed.push(one);
    } else {
      const both = crossOne(one, right);
      crossed.push(...both.left);
      right = both.right;
    }
  }
  return { left: crossed, right };
}
function cross(left, right) {
  let rest = left;
  const crossed = [];
  for (const component of right) {
    const both = crossRow(rest, component);
    rest = both.left;
    crossed.push(...both.right);
  }
  return { left: rest, right: crossed };
}

// src/content.js
function lengthOf(operation) {
  return JSON.stringify(operation).length;
}
function isComposable(components, length) {
  return components <= MOST_COMPOSED && length <= LONGEST_COMPOSED;
}

// src/emitter.js
function report(error) {
  const { reportError } = (
    /** @type {any} */
    globalThis
  );
  if (typeof reportError === "function")
    reportError(error);
  else
    console.error(error);
}
var Emitter = class {
  constructor() {
    const state = { listeners: /* @__PURE__ */ new Map(), waiting: [], isEmitting: false };
    Object.defineProperty(this, "_emitter", { value: () => state });
  }
  /**
   * Calls the listener at each event of this name.
   * @template {keyof Events} Name
   * @param {Name} event
   * @param {(detail: Events[Name]) => void} listener
   * @param {{signal?: AbortSignal}} [options] an aborted signal removes the listener
   * @returns {() => void} removes the listener
   */
  on(event, listener, options) {
    return add(this, event, listener, false, options);
  }
  /**
   * As `on`, for the next event only.
   * @template {keyof Events} Name
   * @param {Name} event
   * @param {(detail: Events[Name]) => void} listener
   * @param {{signal?: AbortSignal}} [options]
   * @returns {() => void} removes the listener
   */
  once(event, listener, options) {
    return add(this, event, listener, true, options);
  }
  /**
   * Removes a listener, or without one all listeners of the event.
   * @template {keyof Events} Name
   * @param {Name} event
   * @param {(detail: Events[Name]) => void} [listener]
   */
  off(event, listener) {
    const { listeners } = stateOf(this);
    listeners.set(event, recordsOf(this, event).filter((record) => listener && record.listener !== listener));
  }
  /**
   * Calls the listeners of an event, after those of the events that are being emitted.
   * @template {keyof Events} Name
   * @param {Name} event
   * @param {Events[Name]} detail
   */
  emit(event, detail) {
    const name = (
      /** @type {string} */
      event
    );
    emitAll(this, [[name, detail]]);
  }
};
function emitAll(emitter, events) {
  const state = stateOf(emitter);
  state.waiting.push(...events);
  if (state.isEmitting)
    return;
  state.isEmitting = true;
  try {
    while (state.waiting.length > 0) {
      const [event, detail] = state.waiting.shift();
      for (const record of recordsOf(emitter, event))
        call(emitter, event, record, detail);
    }
  } finally {
    state.isEmitting = false;
  }
}
function stateOf(emitter) {
  return emitter._emitter();
}
function recordsOf(emitter, event) {
  return stateOf(emitter).listeners.get(event) || [];
}
function remove(emitter, event, removed) {
  stateOf(emitter).listeners.set(event, recordsOf(emitter, event).filter((record) => record !== removed));
}
function add(emitter, event, listener, isOnce, options) {
  const signal = options ? options.signal : void 0;
  const record = { listener, isOnce };
  const stop = () => {
    remove(emitter, event, record);
    if (signal)
      signal.removeEventListener("abort", stop);
  };
  if (signal && signal.aborted)
    return stop;
  if (signal)
    signal.addEventListener("abort", stop);
  stateOf(emitter).listeners.set(event, [...recordsOf(emitter, event), Object.assign(record, { stop })]);
  return stop;
}
function call(emitter, event, record, detail) {
  if (!recordsOf(emitter, event).includes(record))
    return;
  if (record.isOnce)
    record.stop();
  try {
    record.listener(detail);
  } catch (error) {
    report(error);
  }
}

// src/observers.js
function observe(doc, observer) {
  const { observers } = doc._doc();
  observers.add(observer);
  return () => observers.delete(observer);
}
function submitAtOnce(doc, operation, source) {
  return doc._doc().submitAtOnce(operation, source);
}

// src/ot/compose.js
function mergeNumbers(last, next) {
  const sum = last.na + next.na;
  return Math.abs(sum) <= LARGEST ? [{ p: last.p, na: sum }] : null;
}
function mergeInserts(last, next, at, offset) {
  if (offset < at || offset > at + last.si.length)
    return null;
  return [{ p: last.p, si: insertText(last.si, next, offset - at) }];
}
function mergeDeletes(last, next, at, offset) {
  if (offset === at)
    return [{ p: last.p, sd: last.sd + next.sd }];
  return offset + next.sd.length === at ? [{ p: next.p, sd: next.sd + last.sd }] : null;
}
function mergeInsertDelete(last, next, at, offset) {
  if (offset < at || offset + next.sd.length > at + last.si.length)
    return null;
  const left = deleteText(last.si, next, offset - at);
  return left === "" ? [] : [{ p: last.p, si: left }];
}
var MERGES = {
  na: { na: mergeNumbers },
  si: { si: mergeInserts, sd: mergeInsertDelete },
  sd: { sd: mergeDeletes }
};
function merge(last, next) {
  const shape = shapeOf(last);
  const nextShape = shapeOf(next);
  const rule = MERGES[shape] && MERGES[shape][nextShape];
  const depth = containerDepth(last, shape);
  if (!rule || depth !== containerDepth(next, nextShape) || !shareFront(last.p, next.p, depth))
    return null;
  return rule(last, next, last.p[depth], next.p[depth]);
}
function compose(first, second) {
  const composed = first.slice();
  for (const component of second) {
    const last = composed.pop();
    const merged2 = last === void 0 ? [component] : merge(last, component) || [last, component];
    composed.push(...merged2);
  }
  return composed;
}

// src/parts.js
function withoutRemoved(component) {
  return { ...component, [has(component, "ld") ? "ld" : "od"]: null };
}
function withoutRemovedValues(operation) {
  return (
    /** @type {any} */
    operation.map((one) => REMOVING.has(shapeOf(one)) ? withoutRemoved(one) : one)
  );
}

// src/undo.js
var UndoManager = class extends Emitter {
  /**
   * @param {import('./doc.js').Doc<any>} doc
   * @param {UndoOptions} [options]
   */
  constructor(doc, options = {}) {
    super();
    const { groupBy = 500, limit = 100 } = options;
    const state = { doc, groupBy, limit, undos: [], redos: [], isOpen: false, target: null, emitted: "0 0" };
    const stops = [observe(doc, (change) => receive(state, change)), doc.on("change", () => emitChange(this))];
    Object.assign(state, { stops });
    Object.defineProperty(this, "_undo", { value: () => state });
  }
  /** @returns {boolean} */
  get canUndo() {
    return stateOf2(this).undos.length > 0;
  }
  /** @returns {boolean} */
  get canRedo() {
    return stateOf2(this).redos.length > 0;
  }
  /**
   * Undoes the last group of own edits. If its inverse is refused at once, no group can be undone any more.
   * @returns {Promise<{version: number | null}>} as of `submit`; null if there was nothing to undo
   */
  undo() {
    return applyLast(this, "undos", "redos");
  }
  /**
   * Redoes what was undone last, if no own edit was made since.
   * @returns {Promise<{version: number | null}>} as of `submit`; null if there was nothing to redo
   */
  redo() {
    return applyLast(this, "redos", "undos");
  }
  /** Forgets what can be undone and redone. */
  clear() {
    Object.assign(stateOf2(this), { undos: [], redos: [] });
    emitChange(this);
  }
  /** Ends the manager: later edits can't be undone by it. */
  stop() {
    for (const stop of stateOf2(this).stops.splice(0))
      stop();
    this.clear();
  }
};
function stateOf2(manager) {
  return manager._undo();
}
function emitChange(manager) {
  const state = stateOf2(manager);
  const { canUndo, canRedo } = manager;
  const counted = `${state.undos.length} ${state.redos.length}`;
  if (counted === state.emitted)
    return;
  state.emitted = counted;
  manager.emit("change", { canUndo, canRedo });
}
function applyLast(manager, from, target) {
  const state = stateOf2(manager);
  const group = state[from].pop();
  if (group === void 0)
    return Promise.resolve({ version: null });
  state.target = target;
  try {
    return submitAtOnce(state.doc, group.operation, manager);
  } catch (error) {
    state[from] = [];
    emitChange(manager);
    return Promise.reject(error);
  } finally {
    state.target = null;
  }
}
function receive(state, { operation, local, before }) {
  if (operation === null) {
    Object.assign(state, { undos: [], redos: [] });
  } else if (local) {
    keepInverse(state, withoutRemovedValues(invert(operation, before)));
  } else {
    state.undos = transformGroups(state.undos, operation);
    state.redos = transformGroups(state.redos, operation);
  }
}
function keepInverse(state, inverse) {
  const { doc, target, undos, groupBy, limit } = state;
  state.target = null;
  const time = doc._doc().machine.now();
  const length = lengthOf(inverse);
  const last = state.isOpen ? undos[undos.length - 1] : void 0;
  if (target !== null) {
    state[target].push({ operation: inverse, length, time });
  } else if (last && isJoined(last, inverse, length, time - groupBy)) {
    Object.assign(last, { operation: compose(inverse, last.operation), length: last.length + length, time });
  } else {
    undos.push({ operation: inverse, length, time });
  }
  state.isOpen = target === null;
  if (target === null)
    state.redos = [];
  if (state.undos.length > limit)
    state.undos.shift();
}
function isJoined(last, inverse, length, since) {
  return last.time > since && isComposable(last.operation.length + inverse.length, last.length + length);
}
function transformGroups(groups, operation) {
  const kept = [];
  let other = operation;
  for (const group of groups.slice().reverse()) {
    const crossed = orRefusal(() => cross(group.operation, other), () => null);
    if (crossed === null)
      break;
    other = crossed.right;
    if (crossed.left.length > 0)
      kept.push({ ...group, operation: crossed.left });
  }
  return kept.reverse();
}
