/* Navirotsohy 0.1.0, MIT license. Built from client/src by client/tools/build.js: don't edit. */
var __defProp = Object.defineProperty;
var __getOwnPropDesc = Object.getOwnPropertyDescriptor;
var __getOwnPropNames = Object.getOwnPropertyNames;
var __hasOwnProp = Object.prototype.hasOwnProperty;
var __export = (target, all) => {
  for (var name in all)
    __defProp(target, name, { get: all[name], enumerable: true });
};
var __copyProps = (to, from, except, desc) => {
  if (from && typeof from === "object" || typeof from === "function") {
    for (let key of __getOwnPropNames(from))
      if (!__hasOwnProp.call(to, key) && key !== except)
        __defProp(to, key, { get: () => from[key], enumerable: !(desc = __getOwnPropDesc(from, key)) || desc.enumerable });
  }
  return to;
};
var __toCommonJS = (mod) => __copyProps(__defProp({}, "__esModule", { value: true }), mod);

// src/bind_text.js
var bind_text_exports = {};
__export(bind_text_exports, {
  bindText: () => bindText
});
module.exports = __toCommonJS(bind_text_exports);

// src/emitter.js
function report(error) {
  const { reportError } = (
    /** @type {any} */
    globalThis
  );
  if (typeof reportError === "function")
    reportError(error);
  else
    console.error(error);
}

// src/observers.js
function observe(doc, observer) {
  const { observers } = doc._doc();
  observers.add(observer);
  return () => observers.delete(observer);
}
function submitAtOnce(doc, operation, source) {
  return doc._doc().submitAtOnce(operation, source);
}

// src/errors.js
var MESSAGES = {
  ERR_MESSAGE_BADLY_FORMED: "message is badly formed",
  ERR_OT_OP_BADLY_FORMED: "operation is badly formed",
  ERR_DOC_WAS_DELETED: "document was deleted",
  ERR_DOC_ALREADY_CREATED: "document was already created",
  ERR_DOC_DOES_NOT_EXIST: "document does not exist",
  ERR_OT_OP_NOT_APPLIED: "operation can not be applied",
  ERR_CLOSED: "document is closed, or no longer subscribed to",
  ERR_FORBIDDEN: "the server does not admit this client",
  ERR_NOT_LOADED: "document is not loaded: fetch it or subscribe to it first",
  ERR_PROTOCOL: "the other end is no server of documents",
  ERR_SERVER_RESTARTED: "the server was restarted and has lost the document",
  ERR_STORAGE: "the storage has failed",
  ERR_UNREACHABLE: "the server can not be reached"
};
var Refusal = class extends Error {
  /**
   * @param {Code} code
   * @param {string} [message]
   */
  constructor(code, message = MESSAGES[code]) {
    super(message);
    this.name = "Refusal";
    this.code = code;
  }
};
function refusal(code, reason) {
  return new Refusal(code, `${MESSAGES[code]}: ${reason}`);
}
function refuse(code, reason) {
  throw reason === void 0 ? new Refusal(code) : refusal(code, reason);
}
function orRefusal(action, refused) {
  try {
    return action();
  } catch (error) {
    if (error instanceof Refusal)
      return refused(error);
    throw error;
  }
}
function spelled(value) {
  let text;
  try {
    text = JSON.stringify(value);
  } catch {
    text = void 0;
  }
  if (text === void 0 || typeof value === "number")
    text = String(value);
  return text.length > 60 ? `${text.slice(0, 57)}...` : text;
}

// src/limits.js
var LARGEST = Number.MAX_SAFE_INTEGER;

// src/ot/component.js
var LEFT = "left";
var RIGHT = "right";
var MEMBERS = ["ld", "li", "na", "od", "oi", "sd", "si"];
var SHAPES = { na: "na", si: "si", sd: "sd", li: "li", ld: "ld", ldli: "lr", oi: "oi", od: "od", odoi: "or" };
var REMOVING = /* @__PURE__ */ new Set(["ld", "lr", "od", "or"]);
function has(object, key) {
  return Object.prototype.hasOwnProperty.call(object, key);
}
function isObject(value) {
  return value !== null && typeof value === "object" && !Array.isArray(value);
}
function notApplied(reason) {
  return refuse("ERR_OT_OP_NOT_APPLIED", reason);
}
function badlyFormed(reason) {
  return refuse("ERR_OT_OP_BADLY_FORMED", reason);
}
function shapeOf(component) {
  let members = "";
  for (const member of MEMBERS)
    if (has(component, member))
      members += member;
  return has(SHAPES, members) ? SHAPES[members] : badlyFormed(`${spelled(component)} has no known members`);
}
function containerDepth(component, shape) {
  return shape === "na" ? component.p.length : component.p.length - 1;
}
function withStep(component, depth, step) {
  if (step > LARGEST)
    notApplied(`the index ${step} is too large`);
  const path = component.p.slice();
  path[depth] = step;
  return { ...component, p: path };
}
function withLastStep(component, step) {
  return withStep(component, component.p.length - 1, step);
}

// src/ot/halves.js
function isHighHalf(unit) {
  return unit >= 55296 && unit < 56320;
}
function isLowHalf(unit) {
  return unit >= 56320 && unit < 57344;
}
function isInsidePair(text, offset) {
  return isHighHalf(text.charCodeAt(offset - 1)) && isLowHalf(text.charCodeAt(offset));
}

// src/ot/overlay.js
var ABSENT = Symbol("absent");
var MOST_CHANGES = 1e3;
var Overlay = class {
  constructor(base, changes) {
    this.base = base;
    this.changes = changes;
  }
};
function overlayOf(object) {
  return object instanceof Overlay ? object : new Overlay(object, /* @__PURE__ */ new Map());
}
function define(object, key, value) {
  if (key !== "__proto__")
    object[key] = value;
  else
    Object.defineProperty(object, key, { value, configurable: true, enumerable: true, writable: true });
}
function merged({ base, changes }) {
  const whole = { ...base };
  for (const [key, member] of changes) {
    if (member === ABSENT)
      delete whole[key];
    else
      define(whole, key, plain(member));
  }
  return whole;
}
function plain(value) {
  if (!(value instanceof Overlay))
    return value;
  if (value.changes.size > 0)
    Object.assign(value, { base: merged(value), changes: /* @__PURE__ */ new Map() });
  return value.base;
}
function hasMember(object, key) {
  if (!(object instanceof Overlay))
    return has(object, key);
  return object.changes.has(key) ? object.changes.get(key) !== ABSENT : has(object.base, key);
}
function memberOf(object, key) {
  if (!(object instanceof Overlay))
    return object[key];
  return object.changes.has(key) ? object.changes.get(key) : object.base[key];
}
function withMember(object, key, member) {
  const { base, changes } = overlayOf(object);
  const changed = new Overlay(base, new Map(changes).set(key, member));
  if (changed.changes.size > MOST_CHANGES)
    plain(changed);
  return changed;
}
function withoutMember(object, key) {
  return hasMember(object, key) ? withMember(object, key, ABSENT) : object;
}

// src/ot/apply.js
function checkOffset(text, offset) {
  if (typeof text !== "string")
    notApplied("there is no text");
  if (offset > text.length)
    notApplied(`the offset ${offset} exceeds the text's length ${text.length}`);
  if (isInsidePair(text, offset))
    notApplied(`the offset ${offset} is inside a surrogate pair`);
}
function checkItem(list, index, limit) {
  if (!Array.isArray(list))
    notApplied("there is no list");
  if (index >= limit)
    notApplied(`the index ${index} exceeds the list's length ${list.length}`);
}
function checkObject(object) {
  if (!isObject(object))
    notApplied("there is no object");
}
function withItem(list, index, value) {
  const copy = list.slice();
  copy[index] = value;
  return copy;
}
function addNumber(number, { na }) {
  if (typeof number !== "number")
    notApplied("there is no number");
  const sum = number + na;
  return Math.abs(sum) <= LARGEST ? sum : notApplied(`the sum of ${number} and ${na} is too large`);
}
function insertText(text, { si }, offset) {
  checkOffset(text, offset);
  return text.slice(0, offset) + si + text.slice(offset);
}
function deleteText(text, { sd }, offset) {
  checkOffset(text, offset);
  if (!text.startsWith(sd, offset))
    notApplied(`the text at ${offset} isn't ${spelled(sd)}`);
  return text.slice(0, offset) + text.slice(offset + sd.length);
}
function insertItem(list, { li }, index) {
  checkItem(list, index, list && list.length + 1);
  return [...list.slice(0, index), li, ...list.slice(index)];
}
function deleteItem(list, component, index) {
  checkItem(list, index, list && list.length);
  return [...list.slice(0, index), ...list.slice(index + 1)];
}
function replaceItem(list, { li }, index) {
  checkItem(list, index, list && list.length);
  return withItem(list, index, li);
}
function setMember(object, { oi }, key) {
  checkObject(object);
  return withMember(object, key, oi);
}
function removeMember(object, component, key) {
  checkObject(object);
  return withoutMember(object, key);
}
var EFFECTS = {
  na: addNumber,
  si: insertText,
  sd: deleteText,
  li: insertItem,
  ld: deleteItem,
  lr: replaceItem,
  oi: setMember,
  od: removeMember,
  or: setMember
};
function changeAt(value, path, depth, change, from = 0) {
  if (from === depth)
    return change(value);
  const step = path[from];
  if (typeof step === "number") {
    checkItem(value, step, value && value.length);
    return withItem(value, step, plain(changeAt(value[step], path, depth, change, from + 1)));
  }
  if (!isObject(value) || !hasMember(value, step))
    notApplied(`there is no member ${spelled(step)}`);
  return withMember(value, step, changeAt(memberOf(value, step), path, depth, change, from + 1));
}
function applyComponent(data, component) {
  const shape = shapeOf(component);
  const depth = containerDepth(component, shape);
  try {
    return changeAt(data, component.p, depth, (place) => EFFECTS[shape](place, component, component.p[depth]));
  } catch (error) {
    throw error instanceof Refusal ? new Refusal(error.code, `${error.message}, path ${spelled(component.p)}`) : error;
  }
}
function overlaid(data, operation) {
  return operation.reduce(applyComponent, data);
}
function apply(data, operation) {
  return plain(overlaid(data, operation));
}

// src/ot/transform.js
function shareFront(path, other, length) {
  for (let depth = 0; depth < length; depth += 1)
    if (path[depth] !== other[depth])
      return false;
  return true;
}
function withRemovedAfter(component, other) {
  const member = has(component, "ld") ? "ld" : "od";
  const inside = { ...other, p: other.p.slice(component.p.length) };
  return orRefusal(
    () => ({ ...component, [member]: apply(component[member], [inside]) }),
    () => component
  );
}
function transformBelow(component, other, otherShape, depth) {
  const step = component.p[depth];
  const at = other.p[depth];
  if (typeof step !== typeof at)
    return [component];
  switch (otherShape) {
    case "li":
      return at <= step ? [withStep(component, depth, step + 1)] : [component];
    case "ld":
      if (step === at)
        return [];
      return step > at ? [withStep(component, depth, step - 1)] : [component];
    case "lr":
    case "od":
    case "or":
      return step === at ? [] : [component];
    default:
      return [component];
  }
}
function insertAfterInserted(component, other, step, at, side) {
  const isAfter = step > at || step === at && side === RIGHT;
  return [isAfter ? withLastStep(component, step + 1) : component];
}
function itemAfterInserted(component, other, step, at) {
  return [at <= step ? withLastStep(component, step + 1) : component];
}
function insertAfterDeleted(component, other, step, at) {
  return [step > at ? withLastStep(component, step - 1) : component];
}
function deleteAfterDeleted(component, other, step, at) {
  return step === at ? [] : insertAfterDeleted(component, other, step, at);
}
function replaceAfterDeleted(component, other, step, at) {
  if (step === at)
    return [{ p: component.p, li: component.li }];
  return insertAfterDeleted(component, other, step, at);
}
function deleteAfterReplaced(component, other, step, at) {
  return step === at ? [] : [component];
}
function replaceAfterReplaced(component, other, step, at, side) {
  if (step !== at)
    return [component];
  return side === LEFT ? [{ p: component.p, ld: other.li, li: component.li }] : [];
}
function putAfterPut(component, other, key, otherKey, side) {
  if (key !== otherKey)
    return [component];
  return side === LEFT ? [{ p: component.p, od: other.oi, oi: component.oi }] : [];
}
function removeAfterGone(component, other, key, otherKey) {
  return key === otherKey ? [] : [component];
}
function replaceAfterRemoved(component, other, key, otherKey) {
  return [key === otherKey ? { p: component.p, oi: component.oi } : component];
}
function textAfterInsert(component, other, offset, at, side) {
  const isAfter = at < offset || at === offset && side === RIGHT;
  return [isAfter ? withLastStep(component, offset + other.si.length) : component];
}
function textAfterDelete(component, other, offset, at) {
  if (offset <= at)
    return [component];
  return [withLastStep(component, Math.max(at, offset - other.sd.length))];
}
function cut(text, from, to) {
  for (const offset of [from, to]) {
    if (isInsidePair(text, offset))
      notApplied(`${spelled(text)} would be cut inside a surrogate pair`);
  }
  return text.slice(from, to);
}
function deleteAfterInsert(component, other, offset, at) {
  const text = component.sd;
  if (at <= offset)
    return [withLastStep(component, offset + other.si.length)];
  if (at >= offset + text.length)
    return [component];
  const front = { ...component, sd: cut(text, 0, at - offset) };
  const rest = { ...component, sd: cut(text, at - offset, text.length) };
  return [front, withLastStep(rest, offset + other.si.length)];
}
function deleteAfterDelete(component, other, offset, at) {
  const text = component.sd;
  const otherEnd = at + other.sd.length;
  if (offset >= otherEnd)
    return [withLastStep(component, offset - other.sd.length)];
  if (offset + text.length <= at)
    return [component];
  const before = at > offset ? cut(text, 0, at - offset) : "";
  const after = offset + text.length > otherEnd ? cut(text, otherEnd - offset, text.length) : "";
  const left = before + after;
  return left === "" ? [] : [withLastStep({ ...component, sd: left }, Math.min(offset, at))];
}
var BESIDE = {
  li: { li: insertAfterInserted, ld: itemAfterInserted, lr: itemAfterInserted },
  ld: { li: insertAfterDeleted, ld: deleteAfterDeleted, lr: replaceAfterDeleted },
  lr: { ld: deleteAfterReplaced, lr: replaceAfterReplaced },
  oi: { oi: putAfterPut, or: putAfterPut },
  od: { od: removeAfterGone, or: replaceAfterRemoved },
  or: { oi: putAfterPut, or: putAfterPut, od: removeAfterGone },
  si: { si: textAfterInsert, sd: deleteAfterInsert },
  sd: { si: textAfterDelete, sd: deleteAfterDelete },
  na: {}
};
function transformComponent(component, other, side) {
  const shape = shapeOf(component);
  const otherShape = shapeOf(other);
  const depth = containerDepth(component, shape);
  const otherDepth = containerDepth(other, otherShape);
  if (REMOVING.has(shape) && otherDepth > depth && shareFront(component.p, other.p, depth + 1)) {
    return [withRemovedAfter(component, other)];
  }
  if (depth < otherDepth || !shareFront(component.p, other.p, otherDepth))
    return [component];
  if (depth > otherDepth)
    return transformBelow(component, other, otherShape, otherDepth);
  const rule = BESIDE[otherShape][shape];
  return rule ? rule(component, other, component.p[depth], other.p[depth], side) : [component];
}
function crossOne(left, right) {
  if (right.length !== 1)
    return cross([left], right);
  return {
    left: transformComponent(left, right[0], LEFT),
    right: transformComponent(right[0], left, RIGHT)
  };
}
function crossRow(left, component) {
  const crossed = [];
  let right = [component];
  for (const one of left) {
    if (right.length === 0) {
      crossed.push(one);
    } else {
      const both = crossOne(one, right);
      crossed.push(...both.left);
      right = both.right;
    }
  }
  return { left: crossed, right };
}
function cross(left, right) {
  let rest = left;
  const crossed = [];
  for (const component of right) {
    const both = crossRow(rest, component);
    rest = both.left;
    crossed.push(...both.right);
  }
  return { left: rest, right: crossed };
}

// src/ot/compose.js
function mergeNumbers(last, next) {
  const sum = last.na + next.na;
  return Math.abs(sum) <= LARGEST ? [{ p: last.p, na: sum }] : null;
}
function mergeInserts(last, next, at, offset) {
  if (offset < at || offset > at + last.si.length)
    return null;
  return [{ p: last.p, si: insertText(last.si, next, offset - at) }];
}
function mergeDeletes(last, next, at, offset) {
  if (offset === at)
    return [{ p: last.p, sd: last.sd + next.sd }];
  return offset + next.sd.length === at ? [{ p: next.p, sd: next.sd + last.sd }] : null;
}
function mergeInsertDelete(last, next, at, offset) {
  if (offset < at || offset + next.sd.length > at + last.si.length)
    return null;
  const left = deleteText(last.si, next, offset - at);
  return left === "" ? [] : [{ p: last.p, si: left }];
}
var MERGES = {
  na: { na: mergeNumbers },
  si: { si: mergeInserts, sd: mergeInsertDelete },
  sd: { sd: mergeDeletes }
};
function merge(last, next) {
  const shape = shapeOf(last);
  const nextShape = shapeOf(next);
  const rule = MERGES[shape] && MERGES[shape][nextShape];
  const depth = containerDepth(last, shape);
  if (!rule || depth !== containerDepth(next, nextShape) || !shareFront(last.p, next.p, depth))
    return null;
  return rule(last, next, last.p[depth], next.p[depth]);
}
function compose(first, second) {
  const composed = first.slice();
  for (const component of second) {
    const last = composed.pop();
    const merged2 = last === void 0 ? [component] : merge(last, component) || [last, component];
    composed.push(...merged2);
  }
  return composed;
}

// src/ot/text.js
var MOVING = /* @__PURE__ */ new Set(["li", "ld"]);
function commonFront(before, after, most) {
  let length = 0;
  while (length < most && before[length] === after[length])
    length += 1;
  return isHighHalf(before.charCodeAt(length - 1)) ? length - 1 : length;
}
function commonEnd(before, after, most) {
  let length = 0;
  while (length < most && before[before.length - 1 - length] === after[after.length - 1 - length])
    length += 1;
  return isLowHalf(before.charCodeAt(before.length - length)) ? length - 1 : length;
}
function textChange(path, before, after, caret = 0) {
  const shorter = Math.min(before.length, after.length);
  const afterCaret = commonEnd(before, after, Math.min(shorter, after.length - caret));
  const front = commonFront(before, after, shorter - afterCaret);
  const end = commonEnd(before, after, shorter - front);
  const at = [...path, front];
  const removed = before.slice(front, before.length - end);
  const inserted = after.slice(front, after.length - end);
  return [
    ...removed === "" ? [] : [{ p: at, sd: removed }],
    ...inserted === "" ? [] : [{ p: at, si: inserted }]
  ];
}
function caretAfter(p, operation, side) {
  let carets = [{ p, si: "" }];
  for (const component of operation) {
    carets = carets.flatMap((caret) => transformComponent(caret, component, side));
  }
  return carets.length === 0 ? null : carets[0].p;
}
function transformPosition(position, operation, path, side) {
  const after = caretAfter([...path, position], operation, side);
  return after === null ? 0 : (
    /** @type {number} */
    after[after.length - 1]
  );
}
function transformPath(path, operation) {
  const moving = operation.filter((component) => MOVING.has(shapeOf(component)));
  const after = caretAfter([...path, 0], moving, LEFT);
  return after === null ? null : after.slice(0, -1);
}
function componentsFor(path, operation) {
  let present = path;
  return operation.filter((component) => {
    const depth = containerDepth(component, shapeOf(component));
    const isFor = present !== null && depth <= present.length && shareFront(present, component.p, depth);
    present = present && transformPath(present, [component]);
    return isFor;
  });
}
function endOf(operation, path) {
  const isOfText = ({ p: p2, si: si2, sd }) => (si2 || sd) && p2.length === path.length + 1 && shareFront(p2, path, path.length);
  const changes = operation.filter(isOfText);
  if (changes.length === 0)
    return null;
  const { p, si = "" } = (
    /** @type {any} */
    changes[changes.length - 1]
  );
  return p[path.length] + si.length;
}

// src/bind_text.js
function bindText(field, doc, path, options = {}) {
  const bound = new BoundField(field, doc, path, options);
  return { unbind: () => bound.unbind() };
}
var BoundField = class {
  /**
   * @param {Field} field
   * @param {any} doc
   * @param {Path} path
   * @param {TextBindingOptions} options
   */
  constructor(field, doc, path, { undo, refused = report }) {
    this.field = field;
    this.doc = doc;
    this.path = path.slice();
    this.manager = undo;
    this.refused = refused;
    this.composition = null;
    this.stops = [observe(doc, (change) => this.receive(change))];
    this.listen("input", () => this.composition === null && this.send());
    this.listen("compositionstart", () => this.beginComposition());
    this.listen("compositionend", () => this.send());
    this.listen("keydown", (event) => this.press(event));
    this.listen("beforeinput", (event) => this.move(event, { historyUndo: "undo", historyRedo: "redo" }[event.inputType]));
    this.show(null, this.path);
  }
  listen(event, listener) {
    this.field.addEventListener(event, listener);
    this.stops.push(() => this.field.removeEventListener(event, listener));
  }
  unbind() {
    if (this.composition !== null)
      this.send();
    for (const stop of this.stops.splice(0))
      stop();
  }
  get text() {
    const text = this.path === null ? void 0 : this.doc.valueAt(this.path);
    return typeof text === "string" ? text : void 0;
  }
  // The document -------------------------------------------------------------------------------------------------
  receive({ operation, source }) {
    if (source === this || this.path === null)
      return;
    const { path } = this;
    if (operation !== null)
      this.path = transformPath(path, operation);
    if (this.composition !== null)
      this.miss(operation, path);
    else
      this.show(operation, path, source === this.manager);
  }
  miss(operation, path) {
    const { composition, text } = this;
    if (operation !== null) {
      composition.missed = compose(composition.missed, componentsFor(path, operation));
    } else if (text !== void 0) {
      Object.assign(composition, { path, missed: textChange(path, composition.text, text) });
    }
  }
  // Shows the text after an operation on the text at the path. The caret stays between its two letters, or is set after
  // what was undone.
  show(operation, path, isUndone = false) {
    const { field, text } = this;
    if (text === void 0 || field.value === text)
      return;
    const { selectionStart, selectionEnd, selectionDirection, scrollTop } = field;
    const change = operation || textChange(path, field.value, text);
    const end = isUndone ? endOf(change, path) : null;
    const moved = (offset) => end === null ? transformPosition(offset, change, path, LEFT) : end;
    field.value = text;
    if (selectionStart !== null) {
      field.setSelectionRange(moved(selectionStart), moved(selectionEnd), selectionDirection || void 0);
    }
    field.scrollTop = scrollTop;
  }
  // The field ----------------------------------------------------------------------------------------------------
  // (a field shows other line breaks than the text may have)
  beginComposition() {
    const { field, path, text = field.value } = this;
    this.composition = { path, text, missed: [] };
  }
  // Sends what the user has changed. If it is refused, the field shows the document's text again.
  send() {
    const { field, doc, composition, text: present } = this;
    this.composition = null;
    if (present === void 0)
      return;
    const { path, text, missed } = composition || { path: this.path, text: present, missed: [] };
    try {
      const own = textChange(path, text, field.value, field.selectionStart || 0);
      const { left, right } = cross(own, missed);
      submitAtOnce(doc, left, this).catch((error) => this.refuse(error));
      this.show(right, path);
    } catch (error) {
      this.refuse(error);
    }
  }
  refuse(error) {
    if (this.stops.length > 0 && this.composition === null)
      this.show(null, this.path);
    this.refused(error);
  }
  press(event) {
    const { key, altKey, ctrlKey, metaKey, shiftKey } = event;
    if (altKey || !(ctrlKey || metaKey))
      return;
    const moves = shiftKey ? { z: "redo" } : { z: "undo", y: ctrlKey ? "redo" : void 0 };
    this.move(event, moves[key.toLowerCase()]);
  }
  // Undoes or redoes in place of the browser, whose own steps end when a program sets the field's value.
  move(event, name) {
    if (this.manager === void 0 || name === void 0)
      return;
    event.preventDefault();
    if (this.composition === null)
      this.manager[name]().catch((error) => this.refuse(error));
  }
};
