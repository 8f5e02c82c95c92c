/* Navirotsohy 0.1.0, MIT license. Built from client/src by client/tools/build.js: don't edit. */
var Navirotsohy = (() => {
  var __defProp = Object.defineProperty;
  var __getOwnPropDesc = Object.getOwnPropertyDescriptor;
  var __getOwnPropNames = Object.getOwnPropertyNames;
  var __hasOwnProp = Object.prototype.hasOwnProperty;
  var __export = (target, all) => {
    for (var name in all)
      __defProp(target, name, { get: all[name], enumerable: true });
  };
  var __copyProps = (to, from, except, desc) => {
    if (from && typeof from === "object" || typeof from === "function") {
      for (let key of __getOwnPropNames(from))
        if (!__hasOwnProp.call(to, key) && key !== except)
          __defProp(to, key, { get: () => from[key], enumerable: !(desc = __getOwnPropDesc(from, key)) || desc.enumerable });
    }
    return to;
  };
  var __toCommonJS = (mod) => __copyProps(__defProp({}, "__esModule", { value: true }), mod);

  // src/index.js
  var src_exports = {};
  __export(src_exports, {
    Client: () => Client,
    Cluster: () => Cluster,
    Doc: () => Doc,
    Emitter: () => Emitter,
    Refusal: () => Refusal,
    UndoManager: () => UndoManager,
    apply: () => apply,
    bindText: () => bindText,
    bucketOf: () => bucketOf,
    complete: () => complete,
    compose: () => compose,
    cross: () => cross,
    customStorage: () => customStorage,
    difference: () => difference,
    indexedDbStorage: () => indexedDbStorage,
    invert: () => invert,
    textChange: () => textChange,
    transformComponent: () => transformComponent,
    transformOffset: () => transformOffset,
    transformPosition: () => transformPosition
  });

  // src/emitter.js
  function report(error) {
    const { reportError } = (
      /** @type {any} */
      globalThis
    );
    if (typeof reportError === "function")
      reportError(error);
    else
      console.error(error);
  }
  var Emitter = class {
    constructor() {
      const state = { listeners: /* @__PURE__ */ new Map(), waiting: [], isEmitting: false };
      Object.defineProperty(this, "_emitter", { value: () => state });
    }
    /**
     * Calls the listener at each event of this name.
     * @template {keyof Events} Name
     * @param {Name} event
     * @param {(detail: Events[Name]) => void} listener
     * @param {{signal?: AbortSignal}} [options] an aborted signal removes the listener
     * @returns {() => void} removes the listener
     */
    on(event, listener, options) {
      return add(this, event, listener, false, options);
    }
    /**
     * As `on`, for the next event only.
     * @template {keyof Events} Name
     * @param {Name} event
     * @param {(detail: Events[Name]) => void} listener
     * @param {{signal?: AbortSignal}} [options]
     * @returns {() => void} removes the listener
     */
    once(event, listener, options) {
      return add(this, event, listener, true, options);
    }
    /**
     * Removes a listener, or without one all listeners of the event.
     * @template {keyof Events} Name
     * @param {Name} event
     * @param {(detail: Events[Name]) => void} [listener]
     */
    off(event, listener) {
      const { listeners } = stateOf(this);
      listeners.set(event, recordsOf(this, event).filter((record) => listener && record.listener !== listener));
    }
    /**
     * Calls the listeners of an event, after those of the events that are being emitted.
     * @template {keyof Events} Name
     * @param {Name} event
     * @param {Events[Name]} detail
     */
    emit(event, detail) {
      const name = (
        /** @type {string} */
        event
      );
      emitAll(this, [[name, detail]]);
    }
  };
  function emitAll(emitter, events) {
    const state = stateOf(emitter);
    state.waiting.push(...events);
    if (state.isEmitting)
      return;
    state.isEmitting = true;
    try {
      while (state.waiting.length > 0) {
        const [event, detail] = state.waiting.shift();
        for (const record of recordsOf(emitter, event))
          call(emitter, event, record, detail);
      }
    } finally {
      state.isEmitting = false;
    }
  }
  function stateOf(emitter) {
    return emitter._emitter();
  }
  function recordsOf(emitter, event) {
    return stateOf(emitter).listeners.get(event) || [];
  }
  function remove(emitter, event, removed) {
    stateOf(emitter).listeners.set(event, recordsOf(emitter, event).filter((record) => record !== removed));
  }
  function add(emitter, event, listener, isOnce, options) {
    const signal = options ? options.signal : void 0;
    const record = { listener, isOnce };
    const stop = () => {
      remove(emitter, event, record);
      if (signal)
        signal.removeEventListener("abort", stop);
    };
    if (signal && signal.aborted)
      return stop;
    if (signal)
      signal.addEventListener("abort", stop);
    stateOf(emitter).listeners.set(event, [...recordsOf(emitter, event), Object.assign(record, { stop })]);
    return stop;
  }
  function call(emitter, event, record, detail) {
    if (!recordsOf(emitter, event).includes(record))
      return;
    if (record.isOnce)
      record.stop();
    try {
      record.listener(detail);
    } catch (error) {
      report(error);
    }
  }

  // src/observers.js
  function observe(doc, observer) {
    const { observers } = doc._doc();
    observers.add(observer);
    return () => observers.delete(observer);
  }
  function callObservers(observers, changes) {
    for (const change of changes) {
      for (const observer of [...observers]) {
        try {
          observer(change);
        } catch (error) {
          report(error);
        }
      }
    }
  }
  function submitAtOnce(doc, operation, source) {
    return doc._doc().submitAtOnce(operation, source);
  }

  // src/errors.js
  var MESSAGES = {
    ERR_MESSAGE_BADLY_FORMED: "message is badly formed",
    ERR_OT_OP_BADLY_FORMED: "operation is badly formed",
    ERR_DOC_WAS_DELETED: "document was deleted",
    ERR_DOC_ALREADY_CREATED: "document was already created",
    ERR_DOC_DOES_NOT_EXIST: "document does not exist",
    ERR_OT_OP_NOT_APPLIED: "operation can not be applied",
    ERR_CLOSED: "document is closed, or no longer subscribed to",
    ERR_FORBIDDEN: "the server does not admit this client",
    ERR_NOT_LOADED: "document is not loaded: fetch it or subscribe to it first",
    ERR_PROTOCOL: "the other end is no server of documents",
    ERR_SERVER_RESTARTED: "the server was restarted and has lost the document",
    ERR_STORAGE: "the storage has failed",
    ERR_UNREACHABLE: "the server can not be reached"
  };
  var Refusal = class extends Error {
    /**
     * @param {Code} code
     * @param {string} [message]
     */
    constructor(code, message = MESSAGES[code]) {
      super(message);
      this.name = "Refusal";
      this.code = code;
    }
  };
  function refusal(code, reason) {
    return new Refusal(code, `${MESSAGES[code]}: ${reason}`);
  }
  function refuse(code, reason) {
    throw reason === void 0 ? new Refusal(code) : refusal(code, reason);
  }
  function orRefusal(action, refused) {
    try {
      return action();
    } catch (error) {
      if (error instanceof Refusal)
        return refused(error);
      throw error;
    }
  }
  function spelled(value) {
    let text;
    try {
      text = JSON.stringify(value);
    } catch {
      text = void 0;
    }
    if (text === void 0 || typeof value === "number")
      text = String(value);
    return text.length > 60 ? `${text.slice(0, 57)}...` : text;
  }

  // src/limits.js
  var TYPE = "http://sharejs.org/types/JSONv0";
  var LARGEST = Number.MAX_SAFE_INTEGER;
  var LONGEST_MESSAGE = 1048576;
  var LONGEST_NAME = 200;
  var LONGEST_PATH = 50;
  var MOST_COMPONENTS = 256;
  var DEEPEST = 50;
  var MOST_COMPOSED = 64;
  var LONGEST_COMPOSED = 65536;
  var MOST_DIFFERENCES = 500;
  function bytesOf(text) {
    return new TextEncoder().encode(text).length;
  }
  function isText(value) {
    return typeof value === "string" && !/[\ud800-\udfff]/u.test(value);
  }
  function isName(value) {
    return isText(value) && value !== "" && bytesOf(value) <= LONGEST_NAME;
  }
  function isSendable(text) {
    return text.length * 3 <= LONGEST_MESSAGE || bytesOf(text) <= LONGEST_MESSAGE;
  }

  // src/ot/component.js
  var LEFT = "left";
  var RIGHT = "right";
  var FOREIGN = ["lm", "o", "t"];
  var MEMBERS = ["ld", "li", "na", "od", "oi", "sd", "si"];
  var SHAPES = { na: "na", si: "si", sd: "sd", li: "li", ld: "ld", ldli: "lr", oi: "oi", od: "od", odoi: "or" };
  var KEYED = /* @__PURE__ */ new Set(["oi", "od", "or"]);
  var REMOVING = /* @__PURE__ */ new Set(["ld", "lr", "od", "or"]);
  function has(object, key) {
    return Object.prototype.hasOwnProperty.call(object, key);
  }
  function isObject(value) {
    return value !== null && typeof value === "object" && !Array.isArray(value);
  }
  function notApplied(reason) {
    return refuse("ERR_OT_OP_NOT_APPLIED", reason);
  }
  function badlyFormed(reason) {
    return refuse("ERR_OT_OP_BADLY_FORMED", reason);
  }
  function shapeOf(component) {
    let members = "";
    for (const member of MEMBERS)
      if (has(component, member))
        members += member;
    return has(SHAPES, members) ? SHAPES[members] : badlyFormed(`${spelled(component)} has no known members`);
  }
  function containerDepth(component, shape) {
    return shape === "na" ? component.p.length : component.p.length - 1;
  }
  function withStep(component, depth, step) {
    if (step > LARGEST)
      notApplied(`the index ${step} is too large`);
    const path = component.p.slice();
    path[depth] = step;
    return { ...component, p: path };
  }
  function withLastStep(component, step) {
    return withStep(component, component.p.length - 1, step);
  }
  function isStep(step) {
    return isText(step) || Number.isSafeInteger(step) && step >= 0;
  }
  function readPath(path, place) {
    if (!Array.isArray(path))
      badlyFormed(`${place} has no path p`);
    if (path.length > LONGEST_PATH)
      badlyFormed(`${place}: the path has ${path.length} steps, at most ${LONGEST_PATH}`);
    const wrong = path.find((step) => !isStep(step));
    if (wrong !== void 0 || path.includes(void 0))
      badlyFormed(`${place}: ${spelled(wrong)} is no step of a path`);
    return path.slice();
  }
  function readComponent(component, at) {
    const place = `component ${at}`;
    if (!isObject(component))
      badlyFormed(`${place} is ${spelled(component)}, and no object`);
    const foreign = FOREIGN.find((member) => has(component, member));
    if (foreign)
      badlyFormed(`${place}: the member ${foreign} isn't supported`);
    const shape = shapeOf(component);
    const read = { p: readPath(component.p, place) };
    const last = read.p[containerDepth(component, shape)];
    const wanted = KEYED.has(shape) ? "string" : "number";
    if (shape !== "na" && typeof last !== wanted) {
      badlyFormed(`${place}: ${last === void 0 ? "an empty path" : `the last step ${spelled(last)}`} is no ${wanted === "string" ? "key" : "index"}`);
    }
    for (const member of MEMBERS) {
      if (has(component, member))
        read[member] = readMember(member, component[member], `${place}, ${member}`);
    }
    return read;
  }
  function readMember(member, value, place) {
    if (member === "na")
      return readNumber(value, place);
    if (member !== "si" && member !== "sd")
      return readData(value, place);
    return isText(value) ? value : badlyFormed(`${place}: ${spelled(value)} is no text of whole characters`);
  }
  function readNumber(value, place) {
    if (Number.isSafeInteger(value))
      return value + 0;
    return badlyFormed(`${place}: ${spelled(value)} is no whole number up to ${LARGEST}`);
  }
  function isPlain(value) {
    const prototype = Object.getPrototypeOf(value);
    return prototype === null || Object.getPrototypeOf(prototype) === null;
  }
  function readData(value, place = "the data", room = DEEPEST) {
    if (value === null || typeof value === "boolean" || isText(value))
      return (
        /** @type {Data} */
        value
      );
    if (typeof value === "number")
      return readNumber(value, place);
    if (typeof value === "string")
      return badlyFormed(`${place}: a text has half a surrogate pair`);
    if (typeof value !== "object")
      return badlyFormed(`${place} is ${spelled(value)}, and no JSON`);
    if (room === 0)
      return badlyFormed(`${place} is more than ${DEEPEST} levels deep`);
    if (Array.isArray(value))
      return Array.from(value, (item, at) => readData(item, `${place}[${at}]`, room - 1));
    if (!isPlain(value))
      return badlyFormed(`${place} is of the class ${value.constructor.name}, and no plain object`);
    const wrong = Object.keys(value).find((key) => !isText(key));
    if (wrong !== void 0)
      return badlyFormed(`${place}: a key has half a surrogate pair`);
    const read = (key) => [key, readData(value[key], `${place}.${key}`, room - 1)];
    return Object.fromEntries(Object.keys(value).map(read));
  }
  function readOperation(operation, most = MOST_COMPONENTS) {
    if (!Array.isArray(operation))
      return badlyFormed(`${spelled(operation)} is no list of components`);
    if (operation.length > most)
      badlyFormed(`${operation.length} components, at most ${most}`);
    const read = (
      /** @type {any[]} */
      Array.from(operation, readComponent)
    );
    return read.filter((component) => component.si !== "" && component.sd !== "");
  }
  function isShallow(value, room = DEEPEST) {
    if (value === null || typeof value !== "object")
      return true;
    return room > 0 && Object.keys(value).every((key) => isShallow(value[key], room - 1));
  }
  function frozen(value) {
    if (value === null || typeof value !== "object" || Object.isFrozen(value))
      return value;
    Object.freeze(value);
    for (const key of Object.keys(value))
      frozen(value[key]);
    return value;
  }
  function isSame(data, other) {
    if (data === other)
      return true;
    if (!data || !other || typeof data !== "object" || typeof other !== "object")
      return false;
    const keys = Object.keys(data);
    if (Array.isArray(data) !== Array.isArray(other) || keys.length !== Object.keys(other).length)
      return false;
    return keys.every((key) => has(other, key) && isSame(data[key], other[key]));
  }

  // src/ot/halves.js
  function isHighHalf(unit) {
    return unit >= 55296 && unit < 56320;
  }
  function isLowHalf(unit) {
    return unit >= 56320 && unit < 57344;
  }
  function isInsidePair(text, offset) {
    return isHighHalf(text.charCodeAt(offset - 1)) && isLowHalf(text.charCodeAt(offset));
  }

  // src/ot/overlay.js
  var ABSENT = Symbol("absent");
  var MOST_CHANGES = 1e3;
  var Overlay = class {
    constructor(base, changes) {
      this.base = base;
      this.changes = changes;
    }
  };
  function overlayOf(object) {
    return object instanceof Overlay ? object : new Overlay(object, /* @__PURE__ */ new Map());
  }
  function define(object, key, value) {
    if (key !== "__proto__")
      object[key] = value;
    else
      Object.defineProperty(object, key, { value, configurable: true, enumerable: true, writable: true });
  }
  function merged({ base, changes }) {
    const whole = { ...base };
    for (const [key, member] of changes) {
      if (member === ABSENT)
        delete whole[key];
      else
        define(whole, key, plain(member));
    }
    return whole;
  }
  function plain(value) {
    if (!(value instanceof Overlay))
      return value;
    if (value.changes.size > 0)
      Object.assign(value, { base: merged(value), changes: /* @__PURE__ */ new Map() });
    return value.base;
  }
  function hasMember(object, key) {
    if (!(object instanceof Overlay))
      return has(object, key);
    return object.changes.has(key) ? object.changes.get(key) !== ABSENT : has(object.base, key);
  }
  function memberOf(object, key) {
    if (!(object instanceof Overlay))
      return object[key];
    return object.changes.has(key) ? object.changes.get(key) : object.base[key];
  }
  function withMember(object, key, member) {
    const { base, changes } = overlayOf(object);
    const changed = new Overlay(base, new Map(changes).set(key, member));
    if (changed.changes.size > MOST_CHANGES)
      plain(changed);
    return changed;
  }
  function withoutMember(object, key) {
    return hasMember(object, key) ? withMember(object, key, ABSENT) : object;
  }

  // src/ot/apply.js
  function checkOffset(text, offset) {
    if (typeof text !== "string")
      notApplied("there is no text");
    if (offset > text.length)
      notApplied(`the offset ${offset} exceeds the text's length ${text.length}`);
    if (isInsidePair(text, offset))
      notApplied(`the offset ${offset} is inside a surrogate pair`);
  }
  function checkItem(list, index, limit) {
    if (!Array.isArray(list))
      notApplied("there is no list");
    if (index >= limit)
      notApplied(`the index ${index} exceeds the list's length ${list.length}`);
  }
  function checkObject(object) {
    if (!isObject(object))
      notApplied("there is no object");
  }
  function withItem(list, index, value) {
    const copy = list.slice();
    copy[index] = value;
    return copy;
  }
  function addNumber(number, { na }) {
    if (typeof number !== "number")
      notApplied("there is no number");
    const sum = number + na;
    return Math.abs(sum) <= LARGEST ? sum : notApplied(`the sum of ${number} and ${na} is too large`);
  }
  function insertText(text, { si }, offset) {
    checkOffset(text, offset);
    return text.slice(0, offset) + si + text.slice(offset);
  }
  function deleteText(text, { sd }, offset) {
    checkOffset(text, offset);
    if (!text.startsWith(sd, offset))
      notApplied(`the text at ${offset} isn't ${spelled(sd)}`);
    return text.slice(0, offset) + text.slice(offset + sd.length);
  }
  function insertItem(list, { li }, index) {
    checkItem(list, index, list && list.length + 1);
    return [...list.slice(0, index), li, ...list.slice(index)];
  }
  function deleteItem(list, component, index) {
    checkItem(list, index, list && list.length);
    return [...list.slice(0, index), ...list.slice(index + 1)];
  }
  function replaceItem(list, { li }, index) {
    checkItem(list, index, list && list.length);
    return withItem(list, index, li);
  }
  function setMember(object, { oi }, key) {
    checkObject(object);
    return withMember(object, key, oi);
  }
  function removeMember(object, component, key) {
    checkObject(object);
    return withoutMember(object, key);
  }
  var EFFECTS = {
    na: addNumber,
    si: insertText,
    sd: deleteText,
    li: insertItem,
    ld: deleteItem,
    lr: replaceItem,
    oi: setMember,
    od: removeMember,
    or: setMember
  };
  function changeAt(value, path, depth, change, from = 0) {
    if (from === depth)
      return change(value);
    const step = path[from];
    if (typeof step === "number") {
      checkItem(value, step, value && value.length);
      return withItem(value, step, plain(changeAt(value[step], path, depth, change, from + 1)));
    }
    if (!isObject(value) || !hasMember(value, step))
      notApplied(`there is no member ${spelled(step)}`);
    return withMember(value, step, changeAt(memberOf(value, step), path, depth, change, from + 1));
  }
  function applyComponent(data, component) {
    const shape = shapeOf(component);
    const depth = containerDepth(component, shape);
    try {
      return changeAt(data, component.p, depth, (place) => EFFECTS[shape](place, component, component.p[depth]));
    } catch (error) {
      throw error instanceof Refusal ? new Refusal(error.code, `${error.message}, path ${spelled(component.p)}`) : error;
    }
  }
  function valueAt(data, path, depth) {
    let value = data;
    for (let at = 0; at < depth; at += 1) {
      const step = path[at];
      if (typeof step === "number" ? !Array.isArray(value) : !isObject(value))
        return void 0;
      if (Array.isArray(value) ? !has(value, step) : !hasMember(value, step))
        return void 0;
      value = memberOf(value, step);
    }
    return value;
  }
  function overlaid(data, operation) {
    return operation.reduce(applyComponent, data);
  }
  function apply(data, operation) {
    return plain(overlaid(data, operation));
  }

  // src/ot/transform.js
  function shareFront(path, other, length) {
    for (let depth = 0; depth < length; depth += 1)
      if (path[depth] !== other[depth])
        return false;
    return true;
  }
  function withRemovedAfter(component, other) {
    const member = has(component, "ld") ? "ld" : "od";
    const inside = { ...other, p: other.p.slice(component.p.length) };
    return orRefusal(
      () => ({ ...component, [member]: apply(component[member], [inside]) }),
      () => component
    );
  }
  function transformBelow(component, other, otherShape, depth) {
    const step = component.p[depth];
    const at = other.p[depth];
    if (typeof step !== typeof at)
      return [component];
    switch (otherShape) {
      case "li":
        return at <= step ? [withStep(component, depth, step + 1)] : [component];
      case "ld":
        if (step === at)
          return [];
        return step > at ? [withStep(component, depth, step - 1)] : [component];
      case "lr":
      case "od":
      case "or":
        return step === at ? [] : [component];
      default:
        return [component];
    }
  }
  function insertAfterInserted(component, other, step, at, side) {
    const isAfter = step > at || step === at && side === RIGHT;
    return [isAfter ? withLastStep(component, step + 1) : component];
  }
  function itemAfterInserted(component, other, step, at) {
    return [at <= step ? withLastStep(component, step + 1) : component];
  }
  function insertAfterDeleted(component, other, step, at) {
    return [step > at ? withLastStep(component, step - 1) : component];
  }
  function deleteAfterDeleted(component, other, step, at) {
    return step === at ? [] : insertAfterDeleted(component, other, step, at);
  }
  function replaceAfterDeleted(component, other, step, at) {
    if (step === at)
      return [{ p: component.p, li: component.li }];
    return insertAfterDeleted(component, other, step, at);
  }
  function deleteAfterReplaced(component, other, step, at) {
    return step === at ? [] : [component];
  }
  function replaceAfterReplaced(component, other, step, at, side) {
    if (step !== at)
      return [component];
    return side === LEFT ? [{ p: component.p, ld: other.li, li: component.li }] : [];
  }
  function putAfterPut(component, other, key, otherKey, side) {
    if (key !== otherKey)
      return [component];
    return side === LEFT ? [{ p: component.p, od: other.oi, oi: component.oi }] : [];
  }
  function removeAfterGone(component, other, key, otherKey) {
    return key === otherKey ? [] : [component];
  }
  function replaceAfterRemoved(component, other, key, otherKey) {
    return [key === otherKey ? { p: component.p, oi: component.oi } : component];
  }
  function textAfterInsert(component, other, offset, at, side) {
    const isAfter = at < offset || at === offset && side === RIGHT;
    return [isAfter ? withLastStep(component, offset + other.si.length) : component];
  }
  function textAfterDelete(component, other, offset, at) {
    if (offset <= at)
      return [component];
    return [withLastStep(component, Math.max(at, offset - other.sd.length))];
  }
  function cut(text, from, to) {
    for (const offset of [from, to]) {
      if (isInsidePair(text, offset))
        notApplied(`${spelled(text)} would be cut inside a surrogate pair`);
    }
    return text.slice(from, to);
  }
  function deleteAfterInsert(component, other, offset, at) {
    const text = component.sd;
    if (at <= offset)
      return [withLastStep(component, offset + other.si.length)];
    if (at >= offset + text.length)
      return [component];
    const front = { ...component, sd: cut(text, 0, at - offset) };
    const rest = { ...component, sd: cut(text, at - offset, text.length) };
    return [front, withLastStep(rest, offset + other.si.length)];
  }
  function deleteAfterDelete(component, other, offset, at) {
    const text = component.sd;
    const otherEnd = at + other.sd.length;
    if (offset >= otherEnd)
      return [withLastStep(component, offset - other.sd.length)];
    if (offset + text.length <= at)
      return [component];
    const before = at > offset ? cut(text, 0, at - offset) : "";
    const after = offset + text.length > otherEnd ? cut(text, otherEnd - offset, text.length) : "";
    const left = before + after;
    return left === "" ? [] : [withLastStep({ ...component, sd: left }, Math.min(offset, at))];
  }
  var BESIDE = {
    li: { li: insertAfterInserted, ld: itemAfterInserted, lr: itemAfterInserted },
    ld: { li: insertAfterDeleted, ld: deleteAfterDeleted, lr: replaceAfterDeleted },
    lr: { ld: deleteAfterReplaced, lr: replaceAfterReplaced },
    oi: { oi: putAfterPut, or: putAfterPut },
    od: { od: removeAfterGone, or: replaceAfterRemoved },
    or: { oi: putAfterPut, or: putAfterPut, od: removeAfterGone },
    si: { si: textAfterInsert, sd: deleteAfterInsert },
    sd: { si: textAfterDelete, sd: deleteAfterDelete },
    na: {}
  };
  function transformComponent(component, other, side) {
    const shape = shapeOf(component);
    const otherShape = shapeOf(other);
    const depth = containerDepth(component, shape);
    const otherDepth = containerDepth(other, otherShape);
    if (REMOVING.has(shape) && otherDepth > depth && shareFront(component.p, other.p, depth + 1)) {
      return [withRemovedAfter(component, other)];
    }
    if (depth < otherDepth || !shareFront(component.p, other.p, otherDepth))
      return [component];
    if (depth > otherDepth)
      return transformBelow(component, other, otherShape, otherDepth);
    const rule = BESIDE[otherShape][shape];
    return rule ? rule(component, other, component.p[depth], other.p[depth], side) : [component];
  }
  function crossOne(left, right) {
    if (right.length !== 1)
      return cross([left], right);
    return {
      left: transformComponent(left, right[0], LEFT),
      right: transformComponent(right[0], left, RIGHT)
    };
  }
  function crossRow(left, component) {
    const crossed = [];
    let right = [component];
    for (const one of left) {
      if (right.length === 0) {
        crossed.push(one);
      } else {
        const both = crossOne(one, right);
        crossed.push(...both.left);
        right = both.right;
      }
    }
    return { left: crossed, right };
  }
  function cross(left, right) {
    let rest = left;
    const crossed = [];
    for (const component of right) {
      const both = crossRow(rest, component);
      rest = both.left;
      crossed.push(...both.right);
    }
    return { left: rest, right: crossed };
  }

  // src/ot/compose.js
  function mergeNumbers(last, next) {
    const sum = last.na + next.na;
    return Math.abs(sum) <= LARGEST ? [{ p: last.p, na: sum }] : null;
  }
  function mergeInserts(last, next, at, offset) {
    if (offset < at || offset > at + last.si.length)
      return null;
    return [{ p: last.p, si: insertText(last.si, next, offset - at) }];
  }
  function mergeDeletes(last, next, at, offset) {
    if (offset === at)
      return [{ p: last.p, sd: last.sd + next.sd }];
    return offset + next.sd.length === at ? [{ p: next.p, sd: next.sd + last.sd }] : null;
  }
  function mergeInsertDelete(last, next, at, offset) {
    if (offset < at || offset + next.sd.length > at + last.si.length)
      return null;
    const left = deleteText(last.si, next, offset - at);
    return left === "" ? [] : [{ p: last.p, si: left }];
  }
  var MERGES = {
    na: { na: mergeNumbers },
    si: { si: mergeInserts, sd: mergeInsertDelete },
    sd: { sd: mergeDeletes }
  };
  function merge(last, next) {
    const shape = shapeOf(last);
    const nextShape = shapeOf(next);
    const rule = MERGES[shape] && MERGES[shape][nextShape];
    const depth = containerDepth(last, shape);
    if (!rule || depth !== containerDepth(next, nextShape) || !shareFront(last.p, next.p, depth))
      return null;
    return rule(last, next, last.p[depth], next.p[depth]);
  }
  function compose(first, second) {
    const composed = first.slice();
    for (const component of second) {
      const last = composed.pop();
      const merged2 = last === void 0 ? [component] : merge(last, component) || [last, component];
      composed.push(...merged2);
    }
    return composed;
  }

  // src/ot/text.js
  var MOVING = /* @__PURE__ */ new Set(["li", "ld"]);
  function commonFront(before, after, most) {
    let length = 0;
    while (length < most && before[length] === after[length])
      length += 1;
    return isHighHalf(before.charCodeAt(length - 1)) ? length - 1 : length;
  }
  function commonEnd(before, after, most) {
    let length = 0;
    while (length < most && before[before.length - 1 - length] === after[after.length - 1 - length])
      length += 1;
    return isLowHalf(before.charCodeAt(before.length - length)) ? length - 1 : length;
  }
  function textChange(path, before, after, caret = 0) {
    const shorter = Math.min(before.length, after.length);
    const afterCaret = commonEnd(before, after, Math.min(shorter, after.length - caret));
    const front = commonFront(before, after, shorter - afterCaret);
    const end = commonEnd(before, after, shorter - front);
    const at = [...path, front];
    const removed = before.slice(front, before.length - end);
    const inserted = after.slice(front, after.length - end);
    return [
      ...removed === "" ? [] : [{ p: at, sd: removed }],
      ...inserted === "" ? [] : [{ p: at, si: inserted }]
    ];
  }
  function caretAfter(p, operation, side) {
    let carets = [{ p, si: "" }];
    for (const component of operation) {
      carets = carets.flatMap((caret) => transformComponent(caret, component, side));
    }
    return carets.length === 0 ? null : carets[0].p;
  }
  function transformPosition(position, operation, path, side) {
    const after = caretAfter([...path, position], operation, side);
    return after === null ? 0 : (
      /** @type {number} */
      after[after.length - 1]
    );
  }
  function transformOffset(offset, operation, path) {
    return transformPosition(offset, operation, path, LEFT);
  }
  function transformPath(path, operation) {
    const moving = operation.filter((component) => MOVING.has(shapeOf(component)));
    const after = caretAfter([...path, 0], moving, LEFT);
    return after === null ? null : after.slice(0, -1);
  }
  function componentsFor(path, operation) {
    let present = path;
    return operation.filter((component) => {
      const depth = containerDepth(component, shapeOf(component));
      const isFor = present !== null && depth <= present.length && shareFront(present, component.p, depth);
      present = present && transformPath(present, [component]);
      return isFor;
    });
  }
  function endOf(operation, path) {
    const isOfText = ({ p: p2, si: si2, sd }) => (si2 || sd) && p2.length === path.length + 1 && shareFront(p2, path, path.length);
    const changes = operation.filter(isOfText);
    if (changes.length === 0)
      return null;
    const { p, si = "" } = (
      /** @type {any} */
      changes[changes.length - 1]
    );
    return p[path.length] + si.length;
  }

  // src/bind_text.js
  function bindText(field, doc, path, options = {}) {
    const bound = new BoundField(field, doc, path, options);
    return { unbind: () => bound.unbind() };
  }
  var BoundField = class {
    /**
     * @param {Field} field
     * @param {any} doc
     * @param {Path} path
     * @param {TextBindingOptions} options
     */
    constructor(field, doc, path, { undo, refused = report }) {
      this.field = field;
      this.doc = doc;
      this.path = path.slice();
      this.manager = undo;
      this.refused = refused;
      this.composition = null;
      this.stops = [observe(doc, (change) => this.receive(change))];
      this.listen("input", () => this.composition === null && this.send());
      this.listen("compositionstart", () => this.beginComposition());
      this.listen("compositionend", () => this.send());
      this.listen("keydown", (event) => this.press(event));
      this.listen("beforeinput", (event) => this.move(event, { historyUndo: "undo", historyRedo: "redo" }[event.inputType]));
      this.show(null, this.path);
    }
    listen(event, listener) {
      this.field.addEventListener(event, listener);
      this.stops.push(() => this.field.removeEventListener(event, listener));
    }
    unbind() {
      if (this.composition !== null)
        this.send();
      for (const stop of this.stops.splice(0))
        stop();
    }
    get text() {
      const text = this.path === null ? void 0 : this.doc.valueAt(this.path);
      return typeof text === "string" ? text : void 0;
    }
    // The document -------------------------------------------------------------------------------------------------
    receive({ operation, source }) {
      if (source === this || this.path === null)
        return;
      const { path } = this;
      if (operation !== null)
        this.path = transformPath(path, operation);
      if (this.composition !== null)
        this.miss(operation, path);
      else
        this.show(operation, path, source === this.manager);
    }
    miss(operation, path) {
      const { composition, text } = this;
      if (operation !== null) {
        composition.missed = compose(composition.missed, componentsFor(path, operation));
      } else if (text !== void 0) {
        Object.assign(composition, { path, missed: textChange(path, composition.text, text) });
      }
    }
    // Shows the text after an operation on the text at the path. The caret stays between its two letters, or is set after
    // what was undone.
    show(operation, path, isUndone = false) {
      const { field, text } = this;
      if (text === void 0 || field.value === text)
        return;
      const { selectionStart, selectionEnd, selectionDirection, scrollTop } = field;
      const change = operation || textChange(path, field.value, text);
      const end = isUndone ? endOf(change, path) : null;
      const moved = (offset) => end === null ? transformPosition(offset, change, path, LEFT) : end;
      field.value = text;
      if (selectionStart !== null) {
        field.setSelectionRange(moved(selectionStart), moved(selectionEnd), selectionDirection || void 0);
      }
      field.scrollTop = scrollTop;
    }
    // The field ----------------------------------------------------------------------------------------------------
    // (a field shows other line breaks than the text may have)
    beginComposition() {
      const { field, path, text = field.value } = this;
      this.composition = { path, text, missed: [] };
    }
    // Sends what the user has changed. If it is refused, the field shows the document's text again.
    send() {
      const { field, doc, composition, text: present } = this;
      this.composition = null;
      if (present === void 0)
        return;
      const { path, text, missed } = composition || { path: this.path, text: present, missed: [] };
      try {
        const own = textChange(path, text, field.value, field.selectionStart || 0);
        const { left, right } = cross(own, missed);
        submitAtOnce(doc, left, this).catch((error) => this.refuse(error));
        this.show(right, path);
      } catch (error) {
        this.refuse(error);
      }
    }
    refuse(error) {
      if (this.stops.length > 0 && this.composition === null)
        this.show(null, this.path);
      this.refused(error);
    }
    press(event) {
      const { key, altKey, ctrlKey, metaKey, shiftKey } = event;
      if (altKey || !(ctrlKey || metaKey))
        return;
      const moves = shiftKey ? { z: "redo" } : { z: "undo", y: ctrlKey ? "redo" : void 0 };
      this.move(event, moves[key.toLowerCase()]);
    }
    // Undoes or redoes in place of the browser, whose own steps end when a program sets the field's value.
    move(event, name) {
      if (this.manager === void 0 || name === void 0)
        return;
      event.preventDefault();
      if (this.composition === null)
        this.manager[name]().catch((error) => this.refuse(error));
    }
  };

  // src/difference.js
  function difference(path, before, after, origins = /* @__PURE__ */ new Map()) {
    const context = { operation: [], origins };
    compare(context, path, before, after);
    return context.operation;
  }
  function kindOf(value) {
    if (typeof value === "string")
      return "text";
    if (Array.isArray(value))
      return "list";
    return isObject(value) ? "object" : "other";
  }
  var COMPARISONS = {
    text: ({ operation }, path, before, after) => operation.push(...textChange(path, before, after, after.length)),
    list: compareLists,
    object: compareObjects
  };
  function compare(context, path, before, after) {
    const kind = kindOf(before);
    if (COMPARISONS[kind] && kind === kindOf(after) && path.length < LONGEST_PATH) {
      COMPARISONS[kind](context, path, before, after);
    } else if (!isSame(before, after)) {
      context.operation.push(...path.length > 0 ? replacementOf(path, before, after) : additionOf(before, after));
    }
  }
  function replacementOf(p, before, after) {
    return [typeof p[p.length - 1] === "number" ? { p, ld: before, li: after } : { p, od: before, oi: after }];
  }
  function additionOf(before, after) {
    if (typeof before !== "number" || typeof after !== "number")
      notApplied("a whole document keeps its kind");
    const amount = after - before;
    return (Math.abs(amount) <= LARGEST ? [amount] : [0 - before, after]).map((na) => ({ p: [], na }));
  }
  function compareObjects(context, path, before, after) {
    for (const key of Object.keys(before)) {
      if (!has(after, key))
        context.operation.push({ p: [...path, key], od: before[key] });
    }
    for (const key of Object.keys(after)) {
      if (!has(before, key))
        context.operation.push({ p: [...path, key], oi: after[key] });
      else if (before[key] !== after[key])
        compare(context, [...path, key], before[key], after[key]);
    }
  }
  function compareLists(context, path, before, after) {
    const { operation, origins } = context;
    const isCommon = (one, other) => origins.get(other) === one || isSame(one, other);
    let [from, to] = [0, 0];
    for (const [nextFrom, nextTo] of [...commonItems(before, after, isCommon), [before.length, after.length]]) {
      for (; from < nextFrom && to < nextTo; [from, to] = [from + 1, to + 1]) {
        compare(context, [...path, to], before[from], after[to]);
      }
      for (; from < nextFrom; from += 1)
        operation.push({ p: [...path, to], ld: before[from] });
      for (; to < nextTo; to += 1)
        operation.push({ p: [...path, to], li: after[to] });
    }
  }
  function commonItems(before, after, isCommon) {
    const shorter = Math.min(before.length, after.length);
    let front = 0;
    while (front < shorter && isCommon(before[front], after[front]))
      front += 1;
    let [from, to] = [before.length, after.length];
    while (Math.min(from, to) > front && isCommon(before[from - 1], after[to - 1]))
      [from, to] = [from - 1, to - 1];
    const isCommonBetween = (row, column) => isCommon(before[front + row], after[front + column]);
    const between = commonBetween(from - front, to - front, isCommonBetween);
    return [...between.map(([row, column]) => [front + row, front + column]), [from, to]];
  }
  function commonBetween(rows, columns, isCommon) {
    const reached = [];
    for (let count = 0; count <= MOST_DIFFERENCES; count += 1) {
      const furthest = [];
      reached.push(furthest);
      for (let diagonal = -count; diagonal <= count; diagonal += 2) {
        let { row } = stepTo(reached, count, diagonal);
        while (row < rows && row - diagonal < columns && isCommon(row, row - diagonal))
          row += 1;
        furthest[diagonal + count] = row;
        if (row >= rows && row - diagonal >= columns)
          return pairsTo(reached, rows, columns);
      }
    }
    return [];
  }
  function stepTo(reached, count, diagonal) {
    if (count === 0)
      return { row: 0, before: 0 };
    const last = reached[count - 1];
    const [removed, inserted] = [last[diagonal + count - 2], last[diagonal + count]];
    const isInserted = removed === void 0 || removed < inserted;
    return isInserted ? { row: inserted, before: diagonal + 1 } : { row: removed + 1, before: diagonal - 1 };
  }
  function pairsTo(reached, rows, columns) {
    const pairs = [];
    let row = rows;
    let diagonal = rows - columns;
    for (let count = reached.length - 1; count > 0; count -= 1) {
      const step = stepTo(reached, count, diagonal);
      for (; row > step.row; row -= 1)
        pairs.push([row - 1, row - 1 - diagonal]);
      row = step.before < diagonal ? row - 1 : row;
      diagonal = step.before;
    }
    return pairs.reverse();
  }

  // src/edits.js
  function replacement(data, path, value) {
    const read = readData(value);
    const present = valueAt(data, path, path.length);
    if (present !== void 0 && isSame(plain(present), read))
      return [];
    return [typeof path[path.length - 1] === "number" ? { p: path, ld: null, li: read } : { p: path, oi: read }];
  }
  function insertion(data, path, at, value) {
    const place = valueAt(data, path, path.length);
    if (typeof place === "string")
      return [{ p: [...path, at], si: value }];
    if (Array.isArray(place))
      return [{ p: [...path, at], li: value }];
    return notApplied(`there is no list and no text, path ${spelled(path)}`);
  }
  function removal(path) {
    return [typeof path[path.length - 1] === "number" ? { p: path, ld: null } : { p: path, od: null }];
  }
  function rangeRemoval(data, path, at, count) {
    const place = valueAt(data, path, path.length);
    if (typeof place !== "string" && !Array.isArray(place)) {
      notApplied(`there is no list and no text, path ${spelled(path)}`);
    }
    for (const number of [at, count]) {
      if (!Number.isSafeInteger(number) || number < 0)
        refuse("ERR_OT_OP_BADLY_FORMED", `${spelled(number)} is no index`);
    }
    const end = at + count;
    if (end > place.length)
      notApplied(`the end ${end} exceeds the length ${place.length}, path ${spelled(path)}`);
    if (typeof place === "string")
      return [{ p: [...path, at], sd: place.slice(at, end) }];
    return Array.from({ length: count }, () => ({ p: [...path, at], ld: null }));
  }
  function addition(path, amount) {
    return amount === 0 ? [] : [{ p: path, na: amount }];
  }
  function draftOf(value, origins) {
    if (value === null || typeof value !== "object")
      return value;
    const draft = Array.isArray(value) ? value.slice() : { ...value };
    for (const key of Object.keys(draft))
      draft[key] = draftOf(draft[key], origins);
    origins.set(draft, value);
    return draft;
  }
  function checkDraft(value, origins, room) {
    const origin = value !== null && typeof value === "object" && room > 0 ? origins.get(value) : void 0;
    if (origin === void 0) {
      readData(value, "the draft", room);
      return;
    }
    for (const key of Object.keys(value))
      if (value[key] !== origin[key])
        checkDraft(value[key], origins, room - 1);
  }
  function draftDifference(data, path, change) {
    const before = plain(valueAt(data, path, path.length));
    if (before === void 0)
      notApplied(`there is no value, path ${spelled(path)}`);
    const origins = /* @__PURE__ */ new Map();
    const draft = draftOf(before, origins);
    const result = change(draft);
    const after = draft === null || typeof draft !== "object" ? result : draft;
    checkDraft(after, origins, DEEPEST + LONGEST_PATH);
    return difference(path, before, after, origins);
  }

  // src/ot/invert.js
  function removable(value) {
    const removed = plain(value);
    return isShallow(removed) ? removed : null;
  }
  function completeComponent(data, component, shape) {
    const depth = containerDepth(component, shape);
    const place = valueAt(data, component.p, depth);
    const last = component.p[depth];
    if (shape === "ld" || shape === "lr") {
      return Array.isArray(place) && has(place, last) ? { ...component, ld: removable(place[last]) } : component;
    }
    if (!KEYED.has(shape) || !isObject(place))
      return component;
    const { p, oi } = component;
    if (!hasMember(place, last))
      return shape === "od" ? null : { p, oi };
    const od = removable(memberOf(place, last));
    return shape === "od" ? { p, od } : { p, od, oi };
  }
  function completeOverlaid(data, operation) {
    const completed = [];
    let present = data;
    for (const component of operation) {
      const one = completeComponent(present, component, shapeOf(component));
      if (one !== null) {
        present = applyComponent(present, one);
        completed.push(one);
      }
    }
    return { operation: completed, data: present };
  }
  function complete(data, operation) {
    const completed = completeOverlaid(data, operation);
    return { operation: completed.operation, data: plain(completed.data) };
  }
  var INVERSES = {
    na: ({ p, na }) => ({ p, na: 0 - na }),
    si: ({ p, si }) => ({ p, sd: si }),
    sd: ({ p, sd }) => ({ p, si: sd }),
    li: ({ p, li }) => ({ p, ld: li }),
    ld: ({ p }, old) => ({ p, li: old }),
    lr: ({ p, li }, old) => ({ p, ld: li, li: old }),
    oi: ({ p, oi }) => ({ p, od: oi }),
    od: ({ p }, old) => ({ p, oi: old }),
    or: ({ p, oi }, old) => ({ p, od: oi, oi: old })
  };
  function invert(operation, before) {
    const inverse = [];
    let present = before;
    for (const component of operation) {
      const one = completeComponent(present, component, shapeOf(component));
      if (one !== null) {
        const next = applyComponent(present, one);
        const shape = shapeOf(one);
        inverse.push(INVERSES[shape](one, shape === "na" ? void 0 : plain(valueAt(present, one.p, one.p.length))));
        present = next;
      }
    }
    return inverse.reverse();
  }

  // src/content.js
  function applyContent(data, content) {
    if (content.del)
      return void 0;
    if (content.create)
      return data === void 0 ? content.create.data : refuse("ERR_DOC_ALREADY_CREATED");
    return data === void 0 ? refuse("ERR_DOC_DOES_NOT_EXIST") : overlaid(
      data,
      /** @type {Operation} */
      content.op
    );
  }
  function crossContents(own, stored) {
    if (stored.create)
      return refuse("ERR_DOC_ALREADY_CREATED");
    if (own.del)
      return { own, stored: null };
    if (stored.del)
      return refuse("ERR_DOC_WAS_DELETED");
    if (own.create)
      return refuse("ERR_DOC_ALREADY_CREATED");
    const crossed = cross(
      /** @type {Operation} */
      own.op,
      /** @type {Operation} */
      stored.op
    );
    return { own: { op: crossed.left }, stored: { op: crossed.right } };
  }
  function isComplete(data, { op }) {
    if (!op || data === void 0)
      return true;
    const completed = completeOverlaid(data, op).operation;
    return completed.length === op.length && completed.every((one, at) => shapeOf(one) === shapeOf(op[at]));
  }
  function lengthOf(operation) {
    return JSON.stringify(operation).length;
  }
  function isComposable(components, length) {
    return components <= MOST_COMPOSED && length <= LONGEST_COMPOSED;
  }

  // src/parts.js
  function sizeOf(component) {
    return bytesOf(JSON.stringify(component)) + 1;
  }
  function withoutRemoved(component) {
    return { ...component, [has(component, "ld") ? "ld" : "od"]: null };
  }
  function withFittingRemoved(component, room) {
    if (!REMOVING.has(shapeOf(component)))
      return component;
    const isFitting = isShallow(has(component, "ld") ? component.ld : component.od) && sizeOf(component) <= room;
    return isFitting ? component : withoutRemoved(component);
  }
  function middleOf(text) {
    const middle = text.length >> 1;
    return isInsidePair(text, middle) ? middle + 1 : middle;
  }
  function halved(component) {
    const member = has(component, "si") ? "si" : "sd";
    const text = component[member];
    const middle = middleOf(text);
    const rest = { ...component, [member]: text.slice(middle) };
    const at = component.p[component.p.length - 1];
    return [{ ...component, [member]: text.slice(0, middle) }, member === "si" ? withLastStep(rest, at + middle) : rest];
  }
  function shortened(component, room) {
    const fitting = withFittingRemoved(component, room);
    const isHalvable = has(fitting, "si") || has(fitting, "sd");
    if (!isHalvable || sizeOf(fitting) <= room)
      return [fitting];
    return halved(fitting).flatMap((half) => shortened(half, room));
  }
  function firstPart(operation, room) {
    const whole = operation.flatMap((component) => shortened(component, room));
    let size = 0;
    let length = 0;
    while (length < Math.min(whole.length, MOST_COMPONENTS)) {
      size += sizeOf(whole[length]);
      if (size > room && length > 0)
        break;
      length += 1;
    }
    return { part: whole.slice(0, length), rest: whole.slice(length) };
  }
  function withShortRemoved(operation, room) {
    return bytesOf(JSON.stringify(operation)) <= room ? operation : withoutRemovedValues(operation);
  }
  function withoutRemovedValues(operation) {
    return (
      /** @type {any} */
      operation.map((one) => REMOVING.has(shapeOf(one)) ? withoutRemoved(one) : one)
    );
  }

  // src/machine.js
  var NEWER = "ERR_OP_VERSION_NEWER_THAN_CURRENT_SNAPSHOT";
  var BEGINNING = /* @__PURE__ */ new Set(["loading", "verifying", "catching up"]);
  var numberIsUsed = (version) => refusal("ERR_PROTOCOL", `another operation has the number of this one, at the version ${version}`);
  var Machine = class {
    /**
     * @param {{collection: string, id: string, source: string, nextNumber: () => number, now: () => number,
     *   freeze?: boolean, batch?: boolean, stores?: boolean}} settings
     */
    constructor({ collection, id, source, nextNumber, now, freeze = false, batch = false, stores = false }) {
      this.address = { c: collection, d: id };
      this.source = source;
      this.nextNumber = nextNumber;
      this.now = now;
      this.freeze = freeze;
      this.batch = batch;
      this.stores = stores;
      this.isRestoring = stores;
      this.room = LONGEST_MESSAGE - bytesOf(this.textOf({ op: [] }, Number.MAX_SAFE_INTEGER, Number.MAX_SAFE_INTEGER));
      this.state = "offline";
      this.version = null;
      this.confirmed = void 0;
      this.data = void 0;
      this.last = null;
      this.inFlight = null;
      this.queue = [];
      this.preventCompose = false;
      this.isHeld = false;
      this.arrived = /* @__PURE__ */ new Map();
      this.fetched = null;
      this.wanted = false;
      this.followed = false;
      this.requests = [];
      this.delayed = [];
      this.isComparing = false;
      this.fetchers = [];
      this.subscribers = [];
      this.leavers = [];
      this.conditions = [];
      this.failure = null;
      this.out = nothing();
    }
    /**
     * @param {{type: string, [member: string]: any}} input
     * @returns {Transition}
     * @throws {Refusal} for an edit that is refused here; nothing is changed then
     */
    transition(input) {
      this.out = nothing();
      INPUTS[input.type](this, input);
      this.reconcile();
      this.settle();
      const { state, out } = this;
      return { state, ...out };
    }
    /** The number of own contents that aren't known to be stored. */
    get pending() {
      return this.queue.length + (this.inFlight ? 1 : 0);
    }
    /** The time at which the oldest pending edit was made, or null. */
    get pendingSince() {
      const oldest = this.inFlight || this.queue[0];
      return oldest ? oldest.since : null;
    }
    /** Whether no answer is outstanding. */
    get isQuiet() {
      return this.requests.length === 0 && this.delayed.length === 0 && !this.isComparing;
    }
    /** Whether nothing is outstanding that could change the document. */
    get isSettled() {
      return this.state === "live" && this.pending === 0 && this.isQuiet && this.fetched === null && !this.arrived.size;
    }
    // Effects ------------------------------------------------------------------------------------------------------
    emit(name, detail) {
      this.out.events.push([name, detail]);
    }
    /** Returns a document, or a value of one, as a caller receives it. */
    readable(data) {
      return this.freeze ? frozen(plain(data)) : plain(data);
    }
    // Emits an event whose documents are made plain once they are read.
    emitDocuments(name, detail, documents) {
      const { before, data } = documents;
      if (has(documents, "before"))
        Object.defineProperty(detail, "before", { enumerable: true, get: () => this.readable(before) });
      Object.defineProperty(detail, "data", { enumerable: true, get: () => this.readable(data) });
      this.emit(name, detail);
    }
    resolve(waiters, value) {
      for (const { resolve } of waiters)
        this.out.settled.push(() => resolve(value));
    }
    reject(waiters, error) {
      for (const { reject } of waiters)
        this.out.settled.push(() => reject(error));
    }
    send(message) {
      this.out.messages.push(JSON.stringify({ ...message, ...this.address }));
    }
    // Requests -----------------------------------------------------------------------------------------------------
    request(kind, from, purpose) {
      const request = { kind, from, purpose, waiters: [], listed: [] };
      if (purpose !== "check")
        request.waiters.push(...this.fetchers.splice(0));
      this.sendRequest(request);
    }
    sendRequest(request) {
      request.listed = [];
      this.requests.push(request);
      if (request.kind === "u" || request.kind === "f" && request.from === null)
        this.send({ a: request.kind });
      else
        this.send({ a: request.kind, v: request.from });
    }
    // Requests the operations from a version on, or the document, and all future operations if a subscription is wanted.
    ask(from, purpose) {
      this.request(this.wanted ? "s" : "f", from, purpose);
    }
    takeRequest(kind) {
      const at = this.requests.findIndex((request) => request.kind === kind);
      return at < 0 ? null : this.requests.splice(at, 1)[0];
    }
    // Whether the server has a subscription once it has answered the requests that were sent.
    get willFollow() {
      const changing = this.requests.filter(({ kind }) => kind !== "f");
      return changing.length === 0 ? this.followed : changing[changing.length - 1].kind === "s";
    }
    // Whether a subscription, or its end, is to be requested.
    get isToChange() {
      const kind = this.wanted ? "s" : "u";
      return this.wanted !== this.willFollow && !this.delayed.some((request) => request.kind === kind);
    }
    // Sends what the state asks for. Each transition ends with it.
    reconcile() {
      if (this.state === "idle" && this.isNeeded())
        this.begin();
      if (this.state === "live")
        this.advance();
      if (this.canAdvance)
        return;
      if (!this.wanted && this.isToChange) {
        const leave2 = { kind: "u", from: null, purpose: "leave", waiters: this.leavers.splice(0), listed: [] };
        this.sendRequest(leave2);
      }
      if (this.state !== "live")
        return;
      if (this.wanted && this.isToChange)
        this.ask(this.version, "catch up");
      if (this.fetchers.length > 0)
        this.request("f", this.version, "catch up");
      if (this.isMissing())
        this.ask(this.version, "catch up");
      this.sendNext();
    }
    isNeeded() {
      return this.wanted || this.pending > 0 || this.fetchers.length > 0 || this.conditions.some(({ begins }) => begins);
    }
    // Loads the document, or checks that the server has the log that was seen and requests what was stored meanwhile. If
    // no operation was seen, the documents themselves are compared.
    begin() {
      if (this.version === null) {
        this.load();
      } else if (this.version === 0) {
        this.catchUp();
      } else {
        this.state = "verifying";
        if (this.last !== null) {
          this.ask(this.version - 1, "verify");
        } else {
          this.isComparing = true;
          this.out.comparison = this.version;
        }
      }
    }
    load() {
      this.state = "loading";
      this.ask(null, "load");
    }
    catchUp() {
      this.state = "catching up";
      this.ask(this.version, "catch up");
    }
    // Whether an operation is missing that the server doesn't send by itself.
    isMissing() {
      if ([...this.requests, ...this.delayed].some(({ purpose }) => purpose === "catch up"))
        return false;
      const isAwaited = this.inFlight !== null && this.inFlight.sent && this.inFlight.answered === null;
      return this.arrived.size > 0 ? !isAwaited : this.fetched !== null && !this.followed;
    }
    // Settles the promises whose conditions hold, and those that wait in vain.
    settle() {
      this.resolve(this.leavers.splice(0));
      if (this.state === "live" && this.followed && !this.requests.some(({ kind }) => kind !== "f"))
        this.resolve(this.subscribers.splice(0));
      const ready = this.conditions.filter(({ holds }) => holds(this));
      this.conditions = this.conditions.filter((one) => !ready.includes(one));
      this.resolve(ready.map(({ waiter }) => waiter));
      if (this.failure !== null)
        this.rejectWaiting(this.failure);
    }
    // Rejects what waits for an answer. Edits wait for the next connection.
    rejectWaiting(error) {
      const waiting = [...this.subscribers.splice(0), ...this.fetchers.splice(0)];
      for (const { waiters } of this.requests.splice(0))
        waiting.push(...waiters);
      for (const { begins, waiter } of this.conditions)
        if (begins)
          waiting.push(waiter);
      this.conditions = this.conditions.filter(({ begins }) => !begins);
      this.reject(waiting, error);
    }
    // Answers ------------------------------------------------------------------------------------------------------
    receiveAnswer(message) {
      const request = this.takeRequest(message.a);
      if (request === null)
        return;
      if (request.kind !== "f")
        this.followed = request.kind === "s";
      const isWhole = request.kind !== "u" && request.from === null;
      if (isWhole !== Boolean(message.data)) {
        this.reject(request.waiters, new Refusal("ERR_PROTOCOL"));
        this.refuseDocument(new Refusal("ERR_PROTOCOL"));
      } else if (request.purpose === "list") {
        this.resolve(request.waiters, listedFrom(request.listed, request.from));
      } else if (request.purpose === "leave") {
        this.resolve(request.waiters);
      } else if (isWhole) {
        this.receiveSnapshot(request, message.data);
      } else if (request.purpose === "verify" && !this.isVerified(request)) {
        this.fetchers.push(...request.waiters);
        this.restart();
      } else {
        this.receiveEnd(request);
      }
    }
    receiveSnapshot(request, snapshot) {
      if (request.purpose === "check") {
        if (this.version !== null)
          this.fetched = { version: snapshot.v, data: dataOf(snapshot) };
        return;
      }
      const before = this.data;
      this.version = snapshot.v;
      for (const version of this.arrived.keys())
        if (version < snapshot.v)
          this.arrived.delete(version);
      this.confirmed = dataOf(snapshot);
      this.out.replaced = true;
      this.data = this.confirmed;
      this.state = "live";
      this.emitWhole(before);
      this.emit("load", { version: this.version });
      this.resolve(request.waiters);
    }
    isVerified({ listed, from }) {
      const entry = listed.find(({ version }) => version === from);
      const { source, seq } = this.last || {};
      return entry !== void 0 && entry.source === source && entry.seq === seq;
    }
    // The operations from a version on have been received.
    receiveEnd(request) {
      this.resolve(request.waiters);
      if (BEGINNING.has(this.state))
        this.state = "live";
      const isStuck = this.arrived.size > 0 && !this.canAdvance && this.version === request.from;
      if (isStuck)
        this.heal(refusal("ERR_PROTOCOL", `the server doesn't send the operation ${this.version}`));
    }
    receiveCompared({ snapshot, error }) {
      this.isComparing = false;
      if (error && error.code !== NEWER)
        this.refuseDocument(error);
      else if (error || !isSame(plain(this.confirmed), snapshot.data))
        this.restart();
      else
        this.catchUp();
    }
    receiveError(message, error) {
      if (message.a === "op") {
        if (!this.isInFlight(message))
          return;
        if (error.code === "ERR_OUT_OF_MEMORY")
          this.out.retries.push({ type: "retry", seq: message.seq });
        else if (error.code === NEWER && this.state !== "loading")
          this.restart();
        else
          this.refused(error);
        return;
      }
      const request = this.takeRequest(message.a);
      if (request === null)
        return;
      if (error.code === "ERR_OUT_OF_MEMORY") {
        this.delayed.push(request);
        this.out.retries.push({ type: "retry", request });
      } else if (request.purpose === "list") {
        this.reject(request.waiters, error);
      } else if (error.code === NEWER) {
        this.fetchers.push(...request.waiters);
        if (this.state !== "loading")
          this.restart();
      } else if (request.kind === "s") {
        this.refuseSubscription(request, error);
      } else {
        this.reject(request.waiters, error);
        this.refuseDocument(error);
      }
    }
    // The document can be read without a subscription, if something else needs it.
    refuseSubscription(request, error) {
      this.wanted = false;
      this.reject(this.subscribers.splice(0), error);
      this.fetchers.push(...request.waiters);
      this.emit("error", error);
      if (BEGINNING.has(this.state))
        this.state = "idle";
    }
    refuseDocument(error) {
      if (BEGINNING.has(this.state))
        this.state = "refused";
      this.reject(this.fetchers.splice(0), error);
      this.reject(this.subscribers.splice(0), error);
      const waiting = this.conditions.filter(({ begins }) => begins);
      this.conditions = this.conditions.filter(({ begins }) => !begins);
      this.reject(waiting.map(({ waiter }) => waiter), error);
      this.emit("error", error);
    }
    retry({ request, seq }) {
      if (request === void 0) {
        if (this.inFlight && this.inFlight.seq === seq)
          this.sendAgain(this.inFlight);
        return;
      }
      this.delayed = this.delayed.filter((one) => one !== request);
      if (request.kind === "f" || request.kind === "s" === this.wanted) {
        this.sendRequest(request);
      } else if (request.kind === "u") {
        this.resolve(request.waiters);
      } else {
        this.fetchers.push(...request.waiters);
        if (BEGINNING.has(this.state))
          this.state = "idle";
      }
    }
    // Stored operations --------------------------------------------------------------------------------------------
    isInFlight({ seq, src }) {
      return this.inFlight !== null && seq === this.inFlight.seq && src === this.inFlight.source;
    }
    // A message with a content is a stored operation, one without acknowledges the own one. An acknowledgement of a
    // duplicate may be received before operations of smaller versions, so it is kept.
    receiveOperation(message) {
      const content = contentOf(message);
      const own = this.isInFlight(message) ? this.inFlight : null;
      const isOwn = own !== null;
      const entry = { version: message.v, source: message.src, seq: message.seq, content };
      if (content && this.requests.length > 0)
        this.requests[0].listed.push(entry);
      if (own !== null)
        own.answered = message.v;
      if (own !== null && own.content === null && content === null) {
        this.storedAfterAll(own, message.v);
      } else if ((content !== null || isOwn) && (this.version === null || message.v >= this.version)) {
        if (content !== null || !this.arrived.has(message.v))
          this.arrived.set(message.v, entry);
      } else if (isOwn && this.version !== null) {
        this.refused(numberIsUsed(message.v));
      }
    }
    // The client expected a refusal, so the content itself is requested like that of others.
    storedAfterAll({ waiters, dropped }, version) {
      this.inFlight = null;
      this.resolve(waiters, { version });
      this.reportDropped(dropped, new Refusal("ERR_OT_OP_NOT_APPLIED"));
      if (this.state === "live" && version >= this.version)
        this.ask(this.version, "catch up");
    }
    // Whether another stored operation is processed by the next transition: there is one for each, so that `data` is the
    // document after the operation while its events are emitted.
    get canAdvance() {
      return this.state === "live" && this.arrived.has(this.version);
    }
    advance() {
      if (this.canAdvance)
        this.see(this.arrived.get(this.version));
      if (this.state === "live")
        this.useFetched();
    }
    see(entry) {
      const { version, source, seq } = entry;
      this.arrived.delete(version);
      const own = this.isInFlight({ seq, src: source }) ? this.inFlight : null;
      const shown = own !== null && own.content !== null;
      const content = entry.content || own && own.content;
      if (content === null) {
        if (own !== null)
          this.storedAfterAll(own, version);
        else
          this.ask(version, "catch up");
        return;
      }
      const before = this.confirmed;
      const isSent = shown && isSame(content, own.content);
      try {
        this.confirmed = isSent && this.queue.length === 0 ? this.data : applyContent(before, content);
      } catch (error) {
        if (!(error instanceof Refusal))
          throw error;
        this.heal(error);
        return;
      }
      this.version += 1;
      this.last = { source, seq };
      this.out.seen.push({ version, source, seq, content });
      if (shown && !isSent && !this.isConfirmedBy(before, own.content)) {
        this.refused(numberIsUsed(version));
        this.emit("version", { version, source, seq });
        return;
      }
      if (own !== null)
        this.inFlight = null;
      if (!shown)
        this.showOther(entry, before);
      else if (!isSent)
        this.replaceData();
      this.emit("version", { version, source, seq });
      if (own === null)
        return;
      this.emit("stored", { version, source, seq });
      this.resolve(own.waiters, { version });
      this.reportDropped(own.dropped, new Refusal("ERR_OT_OP_NOT_APPLIED"));
    }
    // Whether a content makes the confirmed document of the one before.
    isConfirmedBy(before, content) {
      const made = orRefusal(() => ({ data: applyContent(before, content) }), () => null);
      return made !== null && isSame(plain(made.data), plain(this.confirmed));
    }
    // Transforms the pending contents against a stored one, and shows it. The first pending content that is refused is
    // dropped with those made on it.
    showOther({ content, source }, confirmed) {
      const pending = this.pendingRecords();
      const before = this.data;
      let rest = content;
      for (let at = 0; at < pending.length && rest !== null; at += 1) {
        try {
          const crossed = crossContents(pending[at].content, rest);
          pending[at].content = crossed.own;
          rest = crossed.stored;
        } catch (error) {
          if (!(error instanceof Refusal))
            throw error;
          const dropped = this.dropFrom(at);
          this.replaceData();
          this.emitLife(content, source, before);
          this.reportDropped(dropped, error);
          return;
        }
      }
      if (pending.length > 0 && !isComplete(confirmed, content)) {
        this.replaceData();
        return;
      }
      const shown = rest || { op: [] };
      const data = orRefusal(() => ({ value: applyContent(before, shown) }), () => null);
      if (data === null)
        this.replaceData();
      else
        this.show(data.value, shown, source, false);
    }
    // Replaces `data`, and emits the events of the content.
    show(data, content, source, local) {
      const before = this.data;
      this.data = data;
      const operation = content.op || null;
      if (operation !== null && operation.length === 0)
        return;
      this.out.changes.push({ operation, source, local, before, data });
      if (operation !== null)
        this.emitDocuments("op", { operation, source, local }, { before, data });
      this.emitLife(content, source, before, local);
      this.emitDocuments("change", { operation, source, local }, { before, data });
    }
    emitLife(content, source, before, local = false) {
      if (content.create)
        this.emitDocuments("create", { source, local }, { data: this.data });
      if (content.del && before !== void 0)
        this.emitDocuments("remove", { source, local }, { data: before });
    }
    emitWhole(before) {
      this.out.changes.push({ operation: null, source: null, local: false, before, data: this.data });
      this.emitDocuments("change", { operation: null, source: null, local: false }, { before, data: this.data });
    }
    // Computes `data` anew. The first pending content that can't be applied is dropped with those made on it.
    replaceData() {
      const before = this.data;
      this.data = this.confirmed;
      for (const [at, { content }] of this.pendingRecords().entries()) {
        try {
          this.data = applyContent(this.data, content);
        } catch (error) {
          if (!(error instanceof Refusal))
            throw error;
          const dropped = this.dropFrom(at);
          this.emitWhole(before);
          this.reportDropped(dropped, error);
          return;
        }
      }
      this.emitWhole(before);
    }
    useFetched() {
      if (this.fetched === null || this.fetched.version > this.version)
        return;
      const { version, data } = this.fetched;
      this.fetched = null;
      if (version < this.version || isSame(plain(this.confirmed), data))
        return;
      this.confirmed = data;
      this.out.replaced = true;
      this.replaceData();
      this.emit("healed", { version });
    }
    // Starting anew ------------------------------------------------------------------------------------------------
    // The server was restarted and has lost this document. Its present document is another one.
    restart() {
      const error = new Refusal("ERR_SERVER_RESTARTED");
      const lost = { version: this.version, data: this.readable(this.confirmed), contents: this.contents() };
      const dropped = this.takePending();
      this.forgetData();
      this.reportDropped(dropped, error);
      this.emit("restarted", lost);
      this.load();
    }
    // The document here isn't the server's.
    heal(error) {
      const { version } = this;
      const dropped = this.takeUnanswered();
      this.forgetData();
      this.reportDropped(dropped, error);
      this.emit("healed", { version });
      this.load();
    }
    forgetData() {
      const before = this.data;
      this.version = null;
      this.last = null;
      this.arrived.clear();
      this.fetched = null;
      this.data = this.confirmed;
      this.emitWhole(before);
    }
    takePending() {
      const { inFlight, queue } = this;
      this.inFlight = null;
      this.queue = [];
      return inFlight === null ? queue : [inFlight, ...inFlight.dropped, ...queue];
    }
    // Takes the pending contents, but one whose answer is outstanding over this connection: its promise waits for it.
    takeUnanswered() {
      const { inFlight } = this;
      if (inFlight === null || !inFlight.sent)
        return this.takePending();
      if (inFlight.answered === null)
        return inFlight.content === null ? this.queue.splice(0) : this.dropFrom(0);
      this.resolve(inFlight.waiters, { version: inFlight.answered });
      return this.takePending().slice(1);
    }
    // Own contents -------------------------------------------------------------------------------------------------
    /** @returns {any[]} */
    pendingRecords() {
      const { inFlight, queue } = this;
      return inFlight && inFlight.content !== null ? [inFlight, ...queue] : queue;
    }
    contents() {
      return this.pendingRecords().map(({ content }) => content);
    }
    checkLoaded() {
      if (this.state === "closed")
        refuse("ERR_CLOSED");
      if (this.version === null)
        refuse("ERR_NOT_LOADED");
    }
    submit({ content, source, waiter }) {
      this.checkLoaded();
      const done = content.op ? this.completed(content.op) : { content, data: applyContent(this.data, content) };
      if (done.content.op && done.content.op.length === 0) {
        this.resolve([waiter], { version: null });
        return;
      }
      this.checkSendable(done.content);
      this.enqueue(done.content, waiter);
      if (done.content.op)
        this.hold();
      this.show(done.data, done.content, source, true);
    }
    // Waits for the other edits of this tick, which are joined with this one.
    hold() {
      if (!this.batch || this.preventCompose || this.isHeld)
        return;
      this.isHeld = true;
      this.out.release = true;
    }
    completed(operation) {
      if (this.data === void 0)
        refuse("ERR_DOC_DOES_NOT_EXIST");
      const { operation: whole, data } = completeOverlaid(this.data, operation);
      return { content: { op: withShortRemoved(whole, this.room) }, data };
    }
    checkSendable(content) {
      const text = this.textOf(content, Number.MAX_SAFE_INTEGER, Number.MAX_SAFE_INTEGER);
      if (isSendable(text))
        return;
      const reason = `${bytesOf(text)} bytes, and the server takes at most ${LONGEST_MESSAGE}`;
      throw refusal("ERR_MESSAGE_BADLY_FORMED", reason);
    }
    enqueue(content, waiter) {
      const last = this.queue[this.queue.length - 1];
      const waiting = last && !this.preventCompose ? last.content.op : void 0;
      const length = content.op ? lengthOf(content.op) : 0;
      if (!waiting || !content.op || !isComposable(waiting.length + content.op.length, last.length + length)) {
        const number = last ? last.number + 1 : 0;
        this.queue.push({ number, content, length, waiters: [waiter], since: this.now() });
        return;
      }
      const joined = compose(waiting, content.op);
      Object.assign(last, { content: { op: joined }, length: last.length + length });
      last.waiters.push(waiter);
      if (joined.length > 0)
        return;
      this.queue.pop();
      this.resolve(last.waiters, { version: null });
    }
    textOf(content, version, seq, source = this.source) {
      return JSON.stringify({ a: "op", ...this.address, v: version, src: source, seq, ...content });
    }
    // At most one content is in flight. The next one is sent at the version that includes it.
    sendNext() {
      if (this.inFlight === null) {
        const first = this.isHeld ? void 0 : this.queue.shift();
        if (first)
          this.takeFirst(first);
      }
      const own = this.inFlight;
      if (own === null || own.sent || !own.saved)
        return;
      own.sent = true;
      this.out.messages.push(own.text);
    }
    // Sends a content again, as it applies now: the server may have refused it since it missed too much.
    sendAgain(own) {
      const fits = own.content !== null && (!own.content.op || firstPart(own.content.op, this.room).rest.length === 0);
      if (fits)
        own.text = this.textOf(own.content, this.version, own.seq, own.source);
      if (fits && this.stores)
        Object.assign(own, { saved: false, sent: false });
      else
        this.out.messages.push(own.text);
    }
    // An operation that grew beyond the server's limits is sent in parts. Its promise waits for the last one.
    takeFirst({ number, content, waiters, since }) {
      const { part, rest } = content.op ? firstPart(content.op, this.room) : { part: null, rest: [] };
      if (rest.length > 0)
        this.queue.unshift({ number, content: { op: rest }, length: lengthOf(rest), waiters, since });
      const sent = part ? { op: part } : content;
      const seq = this.nextNumber();
      this.inFlight = {
        content: sent,
        source: this.source,
        seq,
        text: this.textOf(sent, this.version, seq),
        saved: !this.stores,
        sent: false,
        answered: null,
        // the version, if it was acknowledged
        waiters: rest.length > 0 ? [] : waiters,
        since,
        lost: null,
        // the content, if the server will refuse it
        dropped: []
        // the contents made on it
      };
    }
    // Drops pending contents from one on. The answer to the one in flight is outstanding, so it stays without a content.
    // Returns those that are dropped now.
    dropFrom(at) {
      const record = this.inFlight;
      const sent = this.pendingRecords().length - this.queue.length;
      if (record === null || at >= sent)
        return this.queue.splice(at - sent);
      Object.assign(record, { lost: record.content, content: null, dropped: this.queue.splice(0) });
      return [];
    }
    // The operation in flight isn't stored: it is dropped, with those made on it. The document is fetched and compared.
    refused(error) {
      const record = (
        /** @type {InFlight} */
        this.inFlight
      );
      const isKnown = record.content === null;
      const dropped = [record, ...isKnown ? record.dropped : this.queue.splice(0)];
      this.inFlight = null;
      if (!isKnown)
        this.replaceData();
      this.reportDropped(dropped, error);
      this.request("f", null, "check");
    }
    reportDropped(records, error) {
      const contents = records.map(({ content, lost }) => content || lost);
      for (const { waiters } of records)
        this.reject(waiters, error);
      const isLostCreate = error.code === "ERR_DOC_ALREADY_CREATED" && contents.every(({ create }) => create);
      if (contents.length > 0 && !isLostCreate)
        this.emit("refused", { error, contents });
    }
    // The connection -----------------------------------------------------------------------------------------------
    connected() {
      if (this.isRestoring)
        return;
      this.state = "idle";
      for (const request of this.requests.splice(0))
        this.sendRequest(request);
    }
    disconnected() {
      this.state = "offline";
      this.followed = false;
      this.isComparing = false;
      this.fetched = null;
      this.arrived.clear();
      const requests = [...this.requests, ...this.delayed];
      this.requests = requests.filter(({ purpose }) => purpose === "list");
      this.delayed = [];
      for (const { kind, purpose, waiters } of requests) {
        if (kind === "u")
          this.resolve(waiters);
        else if (purpose !== "list")
          this.fetchers.push(...waiters);
      }
      if (this.inFlight !== null)
        Object.assign(this.inFlight, { sent: false, answered: null });
    }
    closed(error) {
      this.disconnected();
      this.state = "closed";
      this.wanted = false;
      this.failure = error;
      if (this.stores)
        for (const { waiters } of this.takePending())
          this.reject(waiters, error);
      else
        this.discard({ error });
    }
    // The storage ----------------------------------------------------------------------------------------------------
    // The storage has been read. It may not have the document.
    restored({ kept }) {
      if (kept !== null)
        this.restore(kept);
      this.isRestoring = false;
    }
    /** @param {Kept} kept */
    restore({ version, last, data, log, sent, queue }) {
      const fresh = (one) => ({ ...one, waiters: [], since: this.now() });
      this.confirmed = log.reduce((before, { content }) => applyContent(before, content), data);
      this.version = version + log.length;
      this.last = log[log.length - 1] || last;
      this.queue = queue.map(fresh);
      if (sent !== null)
        this.inFlight = { ...fresh(sent), dropped: sent.dropped.map(fresh) };
      this.replaceData();
      this.emit("load", { version: this.version });
    }
    // The message is saved. Without one the storage keeps the document no more.
    saved({ text }) {
      this.stores = text !== void 0;
      if (this.inFlight !== null && (!this.stores || this.inFlight.text === text))
        this.inFlight.saved = true;
    }
    // Calls --------------------------------------------------------------------------------------------------------
    // A call begins again after a refusal of the document.
    resume() {
      if (this.state === "closed")
        refuse("ERR_CLOSED");
      if (this.state === "refused")
        this.state = "idle";
    }
    fetch({ waiter }) {
      this.resume();
      this.fetchers.push(waiter);
    }
    subscribe({ waiter }) {
      this.resume();
      this.wanted = true;
      this.subscribers.push(waiter);
    }
    unsubscribe({ waiter }) {
      this.wanted = false;
      this.reject(this.subscribers.splice(0), new Refusal("ERR_CLOSED"));
      this.leavers.push(waiter);
    }
    list({ from, waiter }) {
      if (this.state === "closed")
        refuse("ERR_CLOSED");
      const request = { kind: "f", from, purpose: "list", waiters: [waiter], listed: [] };
      if (this.state === "offline")
        this.requests.push(request);
      else
        this.sendRequest(request);
    }
    until({ holds, begins, waiter }) {
      this.conditions.push({ holds, begins, waiter });
    }
    discard({ error }) {
      const dropped = this.takePending();
      if (dropped.length > 0)
        this.replaceData();
      this.reportDropped(dropped, error);
    }
    receive({ message, error }) {
      if (error)
        this.receiveError(message, error);
      else if (message.a === "op")
        this.receiveOperation(message);
      else
        this.receiveAnswer(message);
    }
  };
  function nothing() {
    const effects = { messages: [], settled: [], events: [], changes: [], retries: [], comparison: null, release: false };
    return { ...effects, seen: [], replaced: false };
  }
  var INPUTS = {
    connected: (machine) => machine.connected(),
    disconnected: (machine) => machine.disconnected(),
    failed: (machine, { error }) => machine.failure = error,
    trying: (machine) => machine.failure = null,
    closed: (machine, { error }) => machine.closed(error),
    restored: (machine, input) => machine.restored(input),
    saved: (machine, input) => machine.saved(input),
    message: (machine, input) => machine.receive(input),
    compared: (machine, input) => machine.receiveCompared(input),
    retry: (machine, input) => machine.retry(input),
    fetch: (machine, input) => machine.fetch(input),
    subscribe: (machine, input) => machine.subscribe(input),
    unsubscribe: (machine, input) => machine.unsubscribe(input),
    submit: (machine, input) => machine.submit(input),
    list: (machine, input) => machine.list(input),
    until: (machine, input) => machine.until(input),
    release: (machine) => machine.isHeld = false,
    kept: () => {
    },
    // only the conditions have changed
    advance: () => {
    },
    // each transition processes an operation, if there is one
    discard: (machine, input) => machine.discard(input)
  };
  function dataOf(snapshot) {
    return has(snapshot, "data") ? snapshot.data : void 0;
  }
  function contentOf(message) {
    if (message.op)
      return { op: message.op };
    if (message.create)
      return { create: message.create };
    return message.del ? { del: true } : null;
  }
  function listedFrom(entries, from) {
    const start = entries.map(({ version }) => version).lastIndexOf(from);
    if (start < 0)
      return [];
    return entries.slice(start).map(({ version, source, seq, content }) => ({ version, source, seq, ...content }));
  }

  // src/doc.js
  var PATIENCE = 2e3;
  var Doc = class extends Emitter {
    /**
     * @param {any} transport
     * @param {string} collection
     * @param {string} id
     * @package
     */
    constructor(transport, collection, id) {
      super();
      const { source, nextNumber, clock, freeze, batch, keeper } = transport;
      const settings = { source, nextNumber, now: clock.now, freeze, batch, stores: keeper !== void 0 };
      const machine = new Machine({ collection, id, ...settings });
      const core = { doc: this, transport, machine, collection, id, waiting: false, timer: null, leaving: null };
      const submitAtOnce2 = (operation, from) => takeEdit(core, () => ({ op: readOperation(operation, Infinity) }), from);
      Object.assign(core, { observers: /* @__PURE__ */ new Set(), submitAtOnce: submitAtOnce2, run: (input) => run(core, input) });
      Object.defineProperty(this, "_doc", { value: () => core });
    }
    /** A collection, or the name of a projection. */
    get collection() {
      return coreOf(this).collection;
    }
    /** @returns {string} */
    get id() {
      return coreOf(this).id;
    }
    /**
     * The state over this connection.
     * @returns {DocState}
     */
    get state() {
      return coreOf(this).machine.state;
    }
    /**
     * The version seen, null before the first answer.
     * @returns {number | null}
     */
    get version() {
      return coreOf(this).machine.version;
    }
    /**
     * The document with own edits: never change it. It is undefined if none exists.
     * @returns {Frozen<T> | undefined}
     */
    get data() {
      const { machine } = coreOf(this);
      return machine.readable(machine.data);
    }
    /**
     * A value of `data`, for documents with large objects: `data` copies each object that has changed since it was read.
     * @param {Path} path
     * @returns {any} undefined if there is none
     */
    valueAt(path) {
      const { machine } = coreOf(this);
      return machine.readable(valueAt(machine.data, path, path.length));
    }
    /**
     * The server's document at `version`, without pending edits.
     * @returns {Frozen<T> | undefined}
     */
    get confirmed() {
      const { machine } = coreOf(this);
      return machine.readable(machine.confirmed);
    }
    /**
     * The source of this client's edits.
     * @returns {string}
     */
    get source() {
      return coreOf(this).machine.source;
    }
    /**
     * The number of own edits that aren't known to be stored; edits in a row count as one.
     * @returns {number}
     */
    get pending() {
      return coreOf(this).machine.pending;
    }
    /**
     * Whether an edit waits for more than two seconds, with a connection or without.
     * @returns {boolean}
     */
    get waiting() {
      return coreOf(this).waiting;
    }
    /**
     * Whether a subscription is wanted.
     * @returns {boolean}
     */
    get wanted() {
      return coreOf(this).machine.wanted;
    }
    /**
     * Whether each edit is stored as an operation of its own, and sent as soon as possible. Otherwise `submit` joins an
     * edit with one that waits.
     * @type {boolean}
     */
    get preventCompose() {
      return coreOf(this).machine.preventCompose;
    }
    set preventCompose(prevent) {
      coreOf(this).machine.preventCompose = prevent;
    }
    // Reading ------------------------------------------------------------------------------------------------------
    /**
     * Brings the document up to date, without a subscription.
     * @returns {Promise<this>} is fulfilled when `data` is the document at the server's version of the fetch
     */
    fetch() {
      return ignorable(asked(this, { type: "fetch" }).then(() => this));
    }
    /**
     * Subscribes to the document, over this connection and the next ones.
     * @returns {Promise<this>} is fulfilled when the document is loaded and the server sends its operations
     */
    subscribe() {
      return ignorable(subscribed(this));
    }
    /**
     * Unsubscribes from the document. Pending edits are still sent.
     * @returns {Promise<void>} is fulfilled when the server has answered, or at once without a connection
     */
    unsubscribe() {
      return asked(this, { type: "unsubscribe" });
    }
    /**
     * Waits until nothing is pending, unsubscribes, and drops the document: the client then returns another object for
     * it. Edits and subscriptions after this call are refused with ERR_CLOSED, and never sent. If `Client.document` is
     * called for it before the end, the document stays and takes edits again.
     * @param {{discard?: boolean, forget?: boolean}} [options] `discard` drops pending edits instead of waiting for them,
     *   `forget` also removes the document from the storage
     * @returns {Promise<void>}
     */
    async destroy(options = {}) {
      const core = coreOf(this);
      const { machine } = core;
      core.leaving = core.leaving || {};
      const { leaving } = core;
      const isKept = () => machine.state === "closed" || core.leaving !== leaving;
      if (machine.isRestoring)
        await until(core, () => !machine.isRestoring || isKept());
      if (options.discard && !isKept())
        run(core, { type: "discard", error: new Refusal("ERR_CLOSED") });
      await until(core, () => machine.pending === 0 || isKept());
      if (isKept())
        return;
      await this.unsubscribe();
      await until(core, () => machine.isQuiet || machine.state === "offline" || isKept());
      if (isKept())
        return;
      core.transport.forget(core, options.forget);
      close(core);
    }
    /**
     * The document at a version.
     * @param {number | null} [version] the present one by default
     * @returns {Promise<Snapshot<T>>}
     */
    snapshot(version = null) {
      return coreOf(this).transport.snapshot(this.collection, this.id, version);
    }
    /**
     * The document at a time of the server's clock.
     * @param {number | null} [moment] in milliseconds since 1970, as Date.now() returns; the present version without one
     * @returns {Promise<Snapshot<T>>}
     */
    snapshotAtTime(moment = null) {
      return coreOf(this).transport.snapshotAtTime(this.collection, this.id, moment);
    }
    /**
     * The stored operations from a version on.
     * @param {number} [from]
     * @returns {Promise<Entry[]>}
     */
    operations(from = 0) {
      return asked(this, { type: "list", from });
    }
    // Writing ------------------------------------------------------------------------------------------------------
    /**
     * Creates the document.
     * @param {T} data
     * @param {SubmitOptions} [options]
     * @returns {Promise<{version: number}>} the version at which it is stored; refused with ERR_DOC_ALREADY_CREATED if
     * the document exists
     */
    create(data, options) {
      return (
        /** @type {any} */
        submitted(this, () => ({ create: { type: TYPE, data: readData(data) } }), options)
      );
    }
    /**
     * Creates the document if none exists. If another client was first, its document stays.
     * @param {T} data
     * @returns {Promise<void>} is fulfilled when the document exists
     */
    createIfAbsent(data) {
      return ignorable(createdIfAbsent(this, data));
    }
    /**
     * Edits the document. The edit changes `data` at once. It is sent once the one in flight is stored, together with the
     * other edits of this tick, which no `await` separates. It is completed by `data`: `ld` and `od` become the values
     * that are removed.
     * @param {Operation} operation on `data`
     * @param {SubmitOptions} [options]
     * @returns {Promise<{version: number | null}>} the version at which it is stored, null if there was nothing to store.
     * If it can't be applied here it is refused at once, and nothing is changed.
     */
    submit(operation, options) {
      return submitted(this, () => ({ op: readOperation(operation) }), options);
    }
    /**
     * Deletes the document. `removeAt` removes a value of it.
     * @param {SubmitOptions} [options] a path is refused
     * @returns {Promise<{version: number}>}
     */
    remove(options) {
      return (
        /** @type {any} */
        submitted(this, () => deletion(options), options)
      );
    }
    /**
     * Sets a key of an object, or replaces an item of a list. Of concurrent values the one that is stored later stays.
     * @param {Path} path of the value
     * @param {any} value
     * @param {SubmitOptions} [options]
     * @returns {Submitted}
     */
    set(path, value, options) {
      return submitEdit(this, path, (data) => replacement(data, path, value), options);
    }
    /**
     * Inserts an item into a list, or a text into a text.
     * @param {Path} path of the list or text
     * @param {number} at an index, or an offset in UTF-16 units
     * @param {any} value an item, or a text
     * @param {SubmitOptions} [options]
     * @returns {Submitted}
     */
    insert(path, at, value, options) {
      return submitEdit(this, path, (data) => insertion(data, path, at, value), options);
    }
    /**
     * Removes a key of an object, or an item of a list.
     * @param {Path} path of the value
     * @param {SubmitOptions} [options]
     * @returns {Submitted}
     */
    removeAt(path, options) {
      return submitEdit(this, path, () => removal(path), options);
    }
    /**
     * Removes items of a list, or a part of a text.
     * @param {Path} path of the list or text
     * @param {number} at an index, or an offset in UTF-16 units
     * @param {number} count of items, or of UTF-16 units
     * @param {SubmitOptions} [options]
     * @returns {Submitted}
     */
    removeRange(path, at, count, options) {
      return submitEdit(this, path, (data) => rangeRemoval(data, path, at, count), options);
    }
    /**
     * Adds to a number. Concurrent amounts are all added.
     * @param {Path} path of the number
     * @param {number} amount
     * @param {SubmitOptions} [options]
     * @returns {Submitted}
     */
    add(path, amount, options) {
      return submitEdit(this, path, () => addition(path, amount), options);
    }
    /**
     * Changes the document as the callback changes a copy of it: the smallest operation between them is submitted. It
     * costs time for each value of the document, or of the part that the option `path` names.
     * @template [Part=T]
     * @param {(draft: Part) => unknown} change changes a list or object in place, and returns any other value anew
     * @param {ChangeOptions} [options]
     * @returns {Submitted}
     */
    change(change, options) {
      const { path = [] } = options || {};
      return submitEdit(this, path, (data) => draftDifference(data, path, change), options);
    }
    /**
     * @param {() => void} [listener]
     * @returns {Promise<void>} is fulfilled when nothing is pending
     */
    whenNothingPending(listener) {
      const settled2 = until(coreOf(this), (machine) => machine.pending === 0 && !machine.isRestoring);
      if (listener)
        settled2.then(listener).catch(report);
      return settled2;
    }
  };
  function coreOf(doc) {
    return doc._doc();
  }
  function ignorable(promise) {
    promise.catch(() => {
    });
    return promise;
  }
  function run(core, input) {
    const { machine } = core;
    perform(core, machine.transition(input));
    while (machine.canAdvance)
      perform(core, machine.transition({ type: "advance" }));
  }
  function perform(core, transition) {
    const { transport, doc } = core;
    const { messages, settled: settled2, events, changes, retries, comparison, release } = transition;
    callObservers(core.observers, changes);
    for (const message of messages)
      transport.send(message);
    if (release)
      Promise.resolve().then(() => run(core, { type: "release" })).catch(report);
    transport.keeper?.observe(core, transition);
    for (const retry of retries)
      transport.later(() => run(core, retry));
    if (comparison !== null)
      compare2(core, comparison);
    for (const settle of settled2)
      settle();
    observeWaiting(core, events);
    emitAll(doc, events);
  }
  function compare2(core, version) {
    const receive2 = (answer) => run(core, { type: "compared", ...answer });
    core.transport.compare(core.collection, core.id, version, receive2);
  }
  function observeWaiting(core, events) {
    const { machine, transport } = core;
    const { clock } = transport;
    const since = machine.pendingSince;
    const waiting = since !== null && clock.now() - since >= PATIENCE;
    if (core.timer !== null)
      clock.clearTimeout(core.timer);
    core.timer = null;
    if (since !== null && !waiting) {
      const again = () => {
        core.timer = null;
        const due = [];
        observeWaiting(core, due);
        emitAll(core.doc, due);
      };
      core.timer = clock.setTimeout(again, since + PATIENCE - clock.now());
    }
    if (waiting === core.waiting)
      return;
    core.waiting = waiting;
    events.push(["waiting", { waiting }]);
  }
  function close(core) {
    run(core, { type: "closed", error: new Refusal("ERR_CLOSED") });
  }
  function keep(core) {
    if (core.leaving === null)
      return;
    core.leaving = null;
    run(core, { type: "kept" });
  }
  function coreFor(transport, collection, id) {
    return coreOf(new Doc(transport, collection, id));
  }
  function asked(doc, input) {
    return new Promise((resolve, reject) => run(coreOf(doc), { ...input, waiter: { resolve, reject } }));
  }
  function until(core, holds, begins = false) {
    return new Promise((resolve, reject) => run(core, { type: "until", holds, begins, waiter: { resolve, reject } }));
  }
  function checkStaying({ leaving }) {
    if (leaving !== null)
      refuse("ERR_CLOSED");
  }
  function takeEdit(core, read, source) {
    const waiter = { resolve: null, reject: null };
    const stored = new Promise((resolve, reject) => Object.assign(waiter, { resolve, reject }));
    checkStaying(core);
    run(core, { type: "submit", content: read(), source, waiter });
    return ignorable(stored);
  }
  function submitted(doc, read, options) {
    const { source = doc.source } = options || {};
    try {
      return takeEdit(coreOf(doc), read, source);
    } catch (error) {
      return Promise.reject(error);
    }
  }
  function deletion(options) {
    if (Array.isArray(options))
      refuse("ERR_OT_OP_BADLY_FORMED", "remove deletes the document, and removeAt a value");
    return { del: true };
  }
  function submitEdit(doc, path, operationFor, options) {
    const { machine } = coreOf(doc);
    const read = () => {
      machine.checkLoaded();
      const { data } = machine;
      if (data === void 0)
        refuse("ERR_DOC_DOES_NOT_EXIST");
      readPath(path, "the edit");
      const op = readOperation(operationFor(data), Infinity);
      if (machine.data !== data)
        refuse("ERR_OT_OP_NOT_APPLIED", "the document was edited by the callback");
      return { op };
    };
    return submitted(doc, read, options);
  }
  async function subscribed(doc) {
    checkStaying(coreOf(doc));
    await asked(doc, { type: "subscribe" });
    return doc;
  }
  async function createdIfAbsent(doc, data) {
    const core = coreOf(doc);
    const { machine } = core;
    checkStaying(core);
    machine.checkLoaded();
    const read = readData(data);
    if (machine.data === void 0) {
      try {
        await doc.create(read);
      } catch (error) {
        if (error.code !== "ERR_DOC_ALREADY_CREATED")
          throw error;
      }
    }
    await until(core, () => machine.confirmed !== void 0 || machine.isSettled, true);
    if (machine.confirmed === void 0)
      refuse("ERR_DOC_DOES_NOT_EXIST");
  }

  // src/connection.js
  var FORBIDDEN = 1008;
  var REASONS = {
    1001: "going away",
    1002: "protocol",
    1007: "protocol",
    [FORBIDDEN]: "forbidden",
    1009: "too long",
    1011: "out of memory",
    1013: "full"
  };
  var PROTOCOL = 1;
  var STABLE = 5e3;
  var LATE = 5e3;
  var TEST = 5e3;
  var NOTHING = { code: 1006, reason: "" };
  var PLATFORM = {
    now: () => Date.now(),
    setTimeout: (action, delay) => setTimeout(action, delay),
    clearTimeout: (timer) => clearTimeout(timer)
  };
  function keyOf(collection, id) {
    return JSON.stringify([collection, id]);
  }
  function randomSource() {
    const bytes = globalThis.crypto.getRandomValues(new Uint8Array(20));
    return Array.from(bytes, (byte) => (byte % 32).toString(32)).join("");
  }
  function refusalOf(message) {
    return new Refusal(message.error.code, message.error.message);
  }
  function isDevelopment() {
    try {
      return true;
    } catch {
      return false;
    }
  }
  function completeOptions(options) {
    const { WebSocket = globalThis["WebSocket"] } = options;
    const source = options.storage || options.source === void 0 ? randomSource() : options.source;
    if (typeof WebSocket !== "function") {
      throw new Error("there is no WebSocket here: hand one over, as new Client(address, { WebSocket: require('ws') })");
    }
    if (!isName(source))
      throw new Error("a source is a text of 1 to 200 bytes");
    return { ...options, source, WebSocket };
  }
  var Client = class extends Emitter {
    /**
     * @param {Address} address as `ws://127.0.0.1:8080`; a function is called at each attempt, so that it may return a
     * new token, or a promise of an address. If that is rejected, the client tries again
     * @param {ClientOptions} [options]
     */
    constructor(address, options = {}) {
      super();
      const connection = new Connection(this, address, completeOptions(options));
      Object.defineProperty(this, "_client", { value: () => connection });
      if (options.connect !== false)
        this.connect();
    }
    /**
     * The server's address.
     * @returns {Address}
     */
    get address() {
      return connectionOf(this).address;
    }
    /** @returns {string} */
    get source() {
      return connectionOf(this).source;
    }
    /** @returns {ClientState} */
    get state() {
      return connectionOf(this).state;
    }
    /**
     * Why the client has failed.
     * @returns {Refusal | null}
     */
    get error() {
      return connectionOf(this).error;
    }
    /**
     * Why the last connection, or the last attempt, ended.
     * @returns {Closing | null}
     */
    get closing() {
      return connectionOf(this).closing;
    }
    /**
     * Whether an edit of any document waits for more than two seconds.
     * @returns {boolean}
     */
    get waiting() {
      return [...connectionOf(this).documents.values()].some(({ waiting }) => waiting);
    }
    /** Connects, and reconnects if the connection is lost. */
    connect() {
      connectionOf(this).connect();
    }
    /** Closes the connection. What is submitted from now on is sent after the next `connect`. */
    disconnect() {
      connectionOf(this).disconnect();
    }
    /**
     * Closes the connection and all documents for good. Pending edits fail with ERR_CLOSED: they are dropped or, with a
     * storage, kept for the next start.
     * @returns {Promise<void>} is fulfilled when the storage has them
     */
    async close() {
      await connectionOf(this).close();
    }
    /**
     * The document of this collection and id, the same object until it is destroyed.
     * @template [T=any]
     * @param {string} collection or the name of a projection, which has some fields only
     * @param {string} id
     * @returns {import('./doc.js').Doc<T>}
     */
    document(collection, id) {
      return connectionOf(this).document(collection, id);
    }
    /**
     * A document at a version.
     * @param {string} collection
     * @param {string} id
     * @param {number | null} [version] the present one by default
     * @returns {Promise<import('./doc.js').Snapshot>}
     */
    snapshot(collection, id, version = null) {
      return connectionOf(this).snapshot({ a: "nf", c: collection, d: id, v: version });
    }
    /**
     * A document at a time of the server's clock.
     * @param {string} collection
     * @param {string} id
     * @param {number | null} [moment] in milliseconds since 1970; the present version without one
     * @returns {Promise<import('./doc.js').Snapshot>}
     */
    snapshotAtTime(collection, id, moment = null) {
      return connectionOf(this).snapshot({ a: "nt", c: collection, d: id, ts: moment });
    }
    /** @returns {Promise<void>} is fulfilled when nothing is pending in any document */
    async whenNothingPending() {
      await Promise.all([...connectionOf(this).documents.values()].map(({ doc }) => doc.whenNothingPending()));
    }
  };
  function resume(client, reporter, collection, id, options = {}) {
    const doc = client.document(collection, id);
    doc.on("refused", ({ error, contents }) => reporter.emit("refused", { collection, id, error, contents }));
    return doc.destroy(options);
  }
  function connectionOf(client) {
    return client._client();
  }
  var Connection = class {
    constructor(client, address, options) {
      this.client = client;
      this.address = address;
      this.options = options;
      this.source = options.source;
      this.WebSocket = options.WebSocket;
      const { connectTimeout = 2e4, heartbeat = 2e4, retryDelay = 1e3, longestDelay = 3e4 } = options;
      const { mostTries = Infinity, clock = PLATFORM, random = Math.random } = options;
      const { freeze = isDevelopment(), batch = true } = options;
      this.connectTimeout = connectTimeout;
      this.heartbeat = heartbeat;
      this.retryDelay = retryDelay;
      this.longestDelay = Math.max(longestDelay, retryDelay);
      this.mostTries = mostTries;
      this.clock = clock;
      this.random = random;
      this.state = "disconnected";
      this.error = null;
      this.closing = null;
      this.wanted = false;
      this.socket = null;
      this.isOpened = false;
      this.isAlive = false;
      this.timer = null;
      this.checkAt = 0;
      this.becameOnline = () => this.wake();
      this.connectedAt = Infinity;
      this.tries = 0;
      this.number = 0;
      this.requested = 0;
      this.requests = /* @__PURE__ */ new Map();
      this.documents = /* @__PURE__ */ new Map();
      this.becameIdle = () => {
      };
      this.keeper = options.storage?._keeperFor(this);
      this.transport = this.transportOf({ freeze, batch });
    }
    // Returns what documents need of the connection.
    transportOf({ freeze, batch }) {
      return {
        source: this.source,
        clock: this.clock,
        freeze,
        batch,
        keeper: this.keeper,
        nextNumber: () => this.number += 1,
        send: (text) => this.send(text),
        later: (action) => this.later(action),
        compare: (c, d, v, receive2) => this.request({ a: "nf", c, d, v }, true, receive2),
        snapshot: (c, d, v) => this.snapshot({ a: "nf", c, d, v }),
        snapshotAtTime: (c, d, ts) => this.snapshot({ a: "nt", c, d, ts }),
        forget: (core, forgets) => this.forget(core, forgets)
      };
    }
    observeIdle() {
      if (this.documents.size === 0 && this.requests.size === 0)
        this.becameIdle();
    }
    // Calls --------------------------------------------------------------------------------------------------------
    connect() {
      if (this.state === "closed")
        throw new Refusal("ERR_CLOSED");
      this.want(true);
      this.tries = 0;
      this.error = null;
      for (const core of this.documents.values())
        run(core, { type: "trying" });
      if (this.socket !== null)
        return;
      try {
        this.open();
      } catch (error) {
        this.want(false);
        throw error;
      }
    }
    // Sends the edits of this tick, before the connection ends.
    release() {
      for (const core of [...this.documents.values()])
        run(core, { type: "release" });
    }
    disconnect() {
      this.release();
      this.want(false);
      this.setTimer(null);
      emitAll(this.client, this.end("disconnected", "disconnected"));
    }
    close() {
      if (this.state !== "closed")
        this.closeAll();
      return this.keeper?.close();
    }
    closeAll() {
      this.release();
      this.want(false);
      this.setTimer(null);
      const ended = this.end("disconnected", "closed");
      this.state = "closed";
      for (const core of this.documents.values()) {
        this.keeper?.leave(core, false);
        close(core);
      }
      this.documents.clear();
      this.rejectRequests(new Refusal("ERR_CLOSED"));
      emitAll(this.client, [...ended, ["state", "closed"]]);
    }
    document(collection, id) {
      if (this.state === "closed")
        throw new Refusal("ERR_CLOSED");
      if (!isName(collection) || !isName(id))
        throw new Error("a collection and an id are texts of 1 to 200 bytes");
      const key = keyOf(collection, id);
      if (!this.documents.has(key)) {
        const core2 = coreFor(this.transport, collection, id);
        this.documents.set(key, core2);
        this.keeper?.open(core2);
        if (this.state === "connected")
          run(core2, { type: "connected" });
        if (this.error !== null)
          run(core2, { type: "failed", error: this.error });
      }
      const core = this.documents.get(key);
      keep(core);
      return core.doc;
    }
    forget(core, forgets) {
      this.documents.delete(keyOf(core.collection, core.id));
      this.keeper?.leave(core, forgets);
      this.observeIdle();
    }
    // The storage --------------------------------------------------------------------------------------------------
    // Sends the pending edits of a document that the application hasn't opened. A cluster does it at its start.
    resume(collection, id) {
      if (!this.options.isBucket)
        resume(this.client, this.client, collection, id);
    }
    // Sends pending edits of a document over a connection of their own, whose storage has these only. Calls `ended` when
    // they are sent, or when the connection is lost.
    sendApart(storage, collection, id, ended) {
      const client = new Client(this.address, { ...this.options, connect: true, storage });
      const end = () => client.close().then(ended);
      client.on("close", end);
      client.document(collection, id).on("error", end);
      resume(client, this.client, collection, id, { forget: true }).then(end);
      return client;
    }
    // The client continues without the storage.
    reportStorage(error) {
      this.client.emit("error", refusal("ERR_STORAGE", error.message));
    }
    snapshot(message) {
      if (this.state === "closed")
        return Promise.reject(new Refusal("ERR_CLOSED"));
      if (this.error !== null) {
        this.observeIdle();
        return Promise.reject(this.error);
      }
      return new Promise((resolve, reject) => {
        this.request(message, false, ({ snapshot, error }) => error ? reject(error) : resolve(snapshot));
      });
    }
    // Snapshots ----------------------------------------------------------------------------------------------------
    // Requests a snapshot. One for a document itself is of use only over this connection.
    request(message, isOwn, receive2) {
      this.requested += 1;
      const text = JSON.stringify({ ...message, id: this.requested });
      this.requests.set(this.requested, { text, isOwn, receive: receive2 });
      this.send(text);
    }
    receiveSnapshot(message) {
      const request = this.requests.get(message.id);
      if (!request)
        return;
      if (message.error && message.error.code === "ERR_OUT_OF_MEMORY") {
        this.later(() => this.send(request.text));
        return;
      }
      this.requests.delete(message.id);
      this.observeIdle();
      if (message.error)
        request.receive({ error: refusalOf(message) });
      else
        request.receive({ snapshot: { version: message.v, data: dataOf(message) } });
    }
    rejectRequests(error) {
      const requests = [...this.requests.values()];
      this.requests.clear();
      this.observeIdle();
      for (const { receive: receive2 } of requests)
        receive2({ error });
    }
    // Sending ------------------------------------------------------------------------------------------------------
    send(text) {
      if (this.state === "connected")
        this.socket.send(text);
    }
    sendHandshake() {
      this.socket.send(JSON.stringify({ a: "hs", id: this.source, protocol: PROTOCOL }));
    }
    // Runs an action after the delay, if the connection is still the same.
    later(action) {
      const { socket } = this;
      this.clock.setTimeout(() => socket === this.socket && socket !== null && action(), this.retryDelay);
    }
    setTimer(action, delay) {
      if (this.timer !== null)
        this.clock.clearTimeout(this.timer);
      const started = () => {
        this.timer = null;
        action();
      };
      this.timer = action === null ? null : this.clock.setTimeout(started, delay);
    }
    // The connection -----------------------------------------------------------------------------------------------
    // Whether there should be a connection. A browser reports that its network is there again.
    want(wanted) {
      const { addEventListener, removeEventListener } = globalThis;
      if (wanted !== this.wanted && addEventListener) {
        (wanted ? addEventListener : removeEventListener).call(globalThis, "online", this.becameOnline);
      }
      this.wanted = wanted;
    }
    // Tries at once, or tests the connection.
    wake() {
      if (this.state === "connected")
        this.requestSign(TEST);
      else if (this.socket === null)
        this.reopen();
    }
    open() {
      const address = typeof this.address === "function" ? this.address() : this.address;
      this.isOpened = false;
      if (typeof address === "string")
        this.openSocket(address);
      else
        this.openLater(address);
      this.setTimer(() => this.giveUp("timeout"), this.connectTimeout);
      this.setState("connecting");
    }
    openSocket(address) {
      const socket = new this.WebSocket(address);
      this.socket = socket;
      socket.onmessage = (event) => socket === this.socket && this.read(event.data);
      socket.onerror = () => {
      };
      socket.onclose = (event) => socket === this.socket && this.lost(closingOf(event || NOTHING, this.isOpened));
    }
    // Opens the socket once its address is known. Until then another object is in its place.
    async openLater(promise) {
      const awaited = { close: () => {
      } };
      this.socket = awaited;
      let address = null;
      try {
        address = await promise;
      } catch (error) {
        if (this.socket === awaited)
          this.lost({ ...NOTHING, reason: "no address", text: String(error && error.message) });
        return;
      }
      if (this.socket === awaited)
        this.orFail(() => this.openSocket(address));
    }
    // Gives up the connection. The next attempt follows.
    giveUp(reason) {
      const { socket } = this;
      this.lost({ code: 1e3, reason, text: "" });
      socket.close();
    }
    /**
     * Ends the connection without another attempt. Returns the events that report it.
     * @returns {Array<[string, any]>}
     */
    end(reason, state) {
      const { socket } = this;
      if (socket === null)
        return [];
      const events = this.drop({ code: 1e3, reason, text: "" }, state);
      socket.close();
      return events;
    }
    lost(closing) {
      const events = this.drop(closing, "disconnected");
      const isForbidden = closing.code === FORBIDDEN;
      if (this.wanted && (isForbidden || this.tries > this.mostTries)) {
        this.fail(new Refusal(isForbidden ? "ERR_FORBIDDEN" : "ERR_UNREACHABLE"), events);
        return;
      }
      if (this.wanted && this.socket === null)
        this.setTimer(() => this.reopen(), this.delay());
      emitAll(this.client, events);
    }
    /**
     * The connection, or the attempt, has ended. Returns the events that report it, for the end of the change.
     * @returns {Array<[string, any]>}
     */
    drop(closing, state) {
      const isStable = this.clock.now() - this.connectedAt >= STABLE;
      this.socket = null;
      this.connectedAt = Infinity;
      this.tries = isStable ? 1 : this.tries + 1;
      this.setTimer(null);
      this.state = state;
      this.closing = closing;
      for (const [number, { isOwn }] of this.requests)
        if (isOwn)
          this.requests.delete(number);
      for (const core of this.documents.values())
        run(core, { type: "disconnected" });
      return [["close", closing], ["state", "disconnected"]];
    }
    reopen() {
      this.orFail(() => this.open());
    }
    orFail(action) {
      try {
        action();
      } catch (error) {
        this.fail(new Refusal("ERR_UNREACHABLE", error.message));
      }
    }
    // All clients lose a server that ends at the same time, so the first delay may be any, down to none.
    delay() {
      const grown = Math.min(this.longestDelay, this.retryDelay * 2 ** Math.min(this.tries - 1, 30));
      return grown * (1 - (this.tries === 1 ? this.random() : this.random() / 2));
    }
    /**
     * Nothing is tried before the next `connect`, which a listener of a document may call meanwhile.
     * @param {Refusal} error
     * @param {Array<[string, any]> | null} [ended]
     */
    fail(error, ended = null) {
      this.want(false);
      this.error = error;
      const events = ended || this.end("failed", "failed");
      if (this.socket === null)
        this.state = "failed";
      this.rejectRequests(error);
      for (const core of this.documents.values())
        run(core, { type: "failed", error: this.error });
      emitAll(this.client, [...events, ["state", "failed"], ["error", error]]);
    }
    setState(state) {
      this.state = state;
      this.client.emit("state", state);
    }
    // A server that hangs sends no sign of life: the connection is then given up. If the machine slept, the server had no
    // time for it.
    checkAlive() {
      const hasSlept = this.clock.now() - this.checkAt > LATE;
      this.keeper?.beat();
      if (this.isAlive || hasSlept)
        this.requestSign(hasSlept ? TEST : this.heartbeat);
      else
        this.giveUp("silent");
    }
    requestSign(delay) {
      this.isAlive = false;
      this.send('{"a":"hs"}');
      this.awaitSign(delay);
    }
    awaitSign(delay) {
      this.checkAt = this.clock.now() + delay;
      this.setTimer(() => this.checkAlive(), delay);
    }
    // Receiving ----------------------------------------------------------------------------------------------------
    read(text) {
      this.isAlive = true;
      let message = null;
      try {
        message = JSON.parse(text);
      } catch {
      }
      if (isMessage(message))
        this.receive(message);
      else
        this.fail(new Refusal("ERR_PROTOCOL"));
    }
    receive(message) {
      if (this.state === "connecting")
        this.receiveOpening(message);
      else if (message.a === "nf" || message.a === "nt")
        this.receiveSnapshot(message);
      else if (message.a !== "init" && message.a !== "hs")
        this.receiveForDocument(message);
    }
    receiveOpening(message) {
      if (message.a === "hs" && message.error && message.error.code === "ERR_OUT_OF_MEMORY") {
        this.later(() => this.sendHandshake());
      } else if (message.error) {
        this.fail(refusalOf(message));
      } else if (message.a === "init" && message.protocol === PROTOCOL) {
        this.isOpened = true;
        this.sendHandshake();
      } else if (message.a === "hs") {
        this.connected();
      } else {
        this.fail(new Refusal("ERR_PROTOCOL"));
      }
    }
    connected() {
      this.connectedAt = this.clock.now();
      this.state = "connected";
      this.awaitSign(this.heartbeat);
      for (const { text } of this.requests.values())
        this.send(text);
      const { socket } = this;
      for (const core of [...this.documents.values()]) {
        if (this.socket === socket && core.machine.state === "offline")
          run(core, { type: "connected" });
      }
      if (this.socket !== socket)
        return;
      this.keeper?.beat();
      this.client.emit("state", "connected");
    }
    receiveForDocument(message) {
      const core = this.documents.get(keyOf(message.c, message.d));
      const error = message.error ? refusalOf(message) : null;
      if (core)
        run(core, { type: "message", message, error });
      else if (error)
        this.client.emit("error", error);
    }
  };
  function closingOf({ code = NOTHING.code, reason = "" }, isOpened) {
    return { code, reason: REASONS[code] || (isOpened ? "lost" : "refused"), text: String(reason) };
  }
  function isMessage(message) {
    if (!isObject(message))
      return false;
    const { a, error, v, op } = message;
    if (error !== void 0)
      return isObject(error);
    if (a !== "op")
      return true;
    return Number.isSafeInteger(v) && v >= 0 && (op === void 0 || Array.isArray(op));
  }

  // src/cluster.js
  var POLYNOMIAL = 3988292384;
  var WORST_FIRST = ["failed", "disconnected", "connecting", "connected"];
  function bucketOf(id, buckets) {
    let rest = -1;
    for (const byte of new TextEncoder().encode(id)) {
      rest ^= byte;
      for (let bit = 0; bit < 8; bit += 1)
        rest = rest >>> 1 ^ (rest & 1 ? POLYNOMIAL : 0);
    }
    return (~rest >>> 0) % buckets;
  }
  var Cluster = class extends Emitter {
    /**
     * @param {string | ((bucket: number) => string | Promise<string>)} address of which bucket N has the address
     * `address/b/N`; a function returns the whole address of a bucket, or a promise of it, and is called at each attempt
     * @param {number} buckets how many there are: the same number in all clients
     * @param {ClusterOptions} [options]
     */
    constructor(address, buckets, options = {}) {
      super();
      if (!Number.isSafeInteger(buckets) || buckets < 1)
        throw new Error("the number of buckets is a whole number from 1 on");
      const { connect = true, idleDelay = 1e4, clock = PLATFORM, ...others } = completeOptions(options);
      const core = {
        cluster: this,
        address,
        buckets,
        options: { ...others, clock, connect: false, isBucket: true },
        clock,
        idleDelay,
        wanted: connect,
        isClosed: false,
        closing: null,
        connections: /* @__PURE__ */ new Map()
        // by bucket; one that is closed stays, since it counts the edits of its source
      };
      Object.defineProperty(this, "_cluster", { value: () => core });
      if (options.storage)
        resumePending(core, options.storage);
    }
    /**
     * The base address.
     * @returns {string | ((bucket: number) => string | Promise<string>)}
     */
    get address() {
      return coreOf2(this).address;
    }
    /** @returns {number} */
    get buckets() {
      return coreOf2(this).buckets;
    }
    /**
     * The source of the edits in all buckets.
     * @returns {string}
     */
    get source() {
      return coreOf2(this).options.source;
    }
    /**
     * The connections in use, by bucket.
     * @returns {BucketState[]}
     */
    get states() {
      return inUse(this).map(({ bucket, client: { state, error, closing } }) => ({ bucket, state, error, closing }));
    }
    /**
     * The first of 'failed', 'disconnected' and 'connecting' that a connection in use has, or else 'connected'.
     * @returns {ClientState}
     */
    get state() {
      const { isClosed, wanted } = coreOf2(this);
      if (isClosed)
        return "closed";
      const states = inUse(this).map(({ client }) => client.state);
      return WORST_FIRST.find((state) => states.includes(state)) || (wanted ? "connected" : "disconnected");
    }
    /**
     * Why a connection in use has failed.
     * @returns {Refusal | null}
     */
    get error() {
      const failed = inUse(this).find(({ client }) => client.error !== null);
      return failed ? failed.client.error : null;
    }
    /**
     * Why the last connection, or the last attempt, ended.
     * @returns {Closing & {bucket: number} | null}
     */
    get closing() {
      return coreOf2(this).closing;
    }
    /**
     * Whether an edit of any document waits for more than two seconds.
     * @returns {boolean}
     */
    get waiting() {
      return clientsOf(this).some(({ waiting }) => waiting);
    }
    /**
     * The bucket of the documents with this id.
     * @param {string} id
     * @returns {number}
     */
    bucketOf(id) {
      return bucketOf(id, this.buckets);
    }
    /** Connects to the buckets in use, and from now on to those that are needed. */
    connect() {
      const core = coreOf2(this);
      if (core.isClosed)
        throw new Refusal("ERR_CLOSED");
      core.wanted = true;
      for (const { client } of inUse(this))
        client.connect();
    }
    /** Closes all connections. What is submitted from now on is sent after the next `connect`. */
    disconnect() {
      coreOf2(this).wanted = false;
      for (const client of clientsOf(this))
        client.disconnect();
    }
    /**
     * Closes all connections and all documents for good. Pending edits fail with ERR_CLOSED: they are dropped or, with a
     * storage, kept for the next start.
     * @returns {Promise<void>} is fulfilled when the storage has them
     */
    async close() {
      const core = coreOf2(this);
      core.isClosed = true;
      for (const connection of core.connections.values())
        setTimer(core, connection, null);
      await Promise.all(clientsOf(this).map((client) => client.close()));
    }
    /**
     * The document of this collection and id, the same object until it is destroyed.
     * @template [T=any]
     * @param {string} collection or the name of a projection, which has some fields only
     * @param {string} id
     * @returns {import('./doc.js').Doc<T>}
     */
    document(collection, id) {
      const core = coreOf2(this);
      if (core.isClosed)
        throw new Refusal("ERR_CLOSED");
      const connection = connectionFor(core, id);
      const doc = connection.client.document(collection, id);
      use(core, connection);
      return doc;
    }
    /**
     * A document at a version.
     * @param {string} collection
     * @param {string} id
     * @param {number | null} [version] the present one by default
     * @returns {Promise<import('./doc.js').Snapshot>}
     */
    snapshot(collection, id, version = null) {
      return requested(this, id, (client) => client.snapshot(collection, id, version));
    }
    /**
     * A document at a time of the clock of its bucket's server.
     * @param {string} collection
     * @param {string} id
     * @param {number | null} [moment] in milliseconds since 1970; the present version without one
     * @returns {Promise<import('./doc.js').Snapshot>}
     */
    snapshotAtTime(collection, id, moment = null) {
      return requested(this, id, (client) => client.snapshotAtTime(collection, id, moment));
    }
    /** @returns {Promise<void>} is fulfilled when nothing is pending in any document */
    async whenNothingPending() {
      await Promise.all(clientsOf(this).map((client) => client.whenNothingPending()));
    }
  };
  function coreOf2(cluster) {
    return cluster._cluster();
  }
  function clientsOf(cluster) {
    return [...coreOf2(cluster).connections.values()].map(({ client }) => client);
  }
  function inUse(cluster) {
    const connections = [...coreOf2(cluster).connections.values()].filter(({ isUsed }) => isUsed);
    return connections.sort((one, other) => one.bucket - other.bucket);
  }
  function addressOf({ address }, bucket) {
    return typeof address === "function" ? () => address(bucket) : `${address.replace(/\/$/, "")}/b/${bucket}`;
  }
  function connectionFor(core, id) {
    const bucket = bucketOf(id, core.buckets);
    if (!core.connections.has(bucket))
      core.connections.set(bucket, newConnection(core, bucket));
    return core.connections.get(bucket);
  }
  function newConnection(core, bucket) {
    const { cluster } = core;
    const client = new Client(addressOf(core, bucket), core.options);
    const connection = { bucket, client, isUsed: false, timer: null };
    client.on("state", (state) => cluster.emit("state", { bucket, state }));
    client.on("error", (error) => cluster.emit("error", { bucket, error }));
    client.on("refused", (detail) => cluster.emit("refused", detail));
    client.on("close", (closing) => {
      core.closing = { bucket, ...closing };
      cluster.emit("close", core.closing);
    });
    connectionOf(client).becameIdle = () => setTimer(core, connection, () => leave(connection));
    return connection;
  }
  async function resumePending(core, storage) {
    for (const { collection, id, pending } of await storage.documents().catch(() => [])) {
      const { documents } = connectionOf(connectionFor(core, id).client);
      const isOpen = core.isClosed || documents.has(keyOf(collection, id));
      if (pending && !isOpen)
        resume(core.cluster, core.cluster, collection, id);
    }
  }
  function use(core, connection) {
    setTimer(core, connection, null);
    if (connection.isUsed)
      return;
    connection.isUsed = true;
    if (core.wanted)
      connection.client.connect();
  }
  function leave(connection) {
    connection.isUsed = false;
    connection.client.disconnect();
  }
  function setTimer(core, connection, action) {
    const { clock, idleDelay, isClosed } = core;
    if (connection.timer !== null)
      clock.clearTimeout(connection.timer);
    connection.timer = action === null || isClosed ? null : clock.setTimeout(action, idleDelay);
  }
  function requested(cluster, id, request) {
    const core = coreOf2(cluster);
    if (core.isClosed)
      return Promise.reject(new Refusal("ERR_CLOSED"));
    const connection = connectionFor(core, id);
    use(core, connection);
    return request(connection.client);
  }

  // src/keeper.js
  var LATER = 1e3;
  var MOST_LOGGED = 500;
  var RESTORED = { saved: true, sent: false, answered: null };
  function padded(number) {
    return String(number).padStart(16, "0");
  }
  function placesOf(keys) {
    const places = {};
    for (const key of keys) {
      const [, front, document, kind] = /^((\[.*\])\/[^/]*\/)(.)/.exec(key) || [];
      places[front] = places[front] || { front, document, pending: false };
      if (kind === "s" || kind === "w")
        places[front].pending = true;
    }
    return Object.values(places);
  }
  async function documentsOf(methods) {
    const documents = {};
    for (const { document, pending } of placesOf(await methods.keys(""))) {
      documents[document] = pending || documents[document] || false;
    }
    return Object.keys(documents).map((document) => {
      const [collection, id] = JSON.parse(document);
      return { collection, id, pending: documents[document] };
    });
  }
  function recordOf(front, pairs, release) {
    const kept = { log: [], sent: null, queue: [] };
    const record = { front, release, kept: null, logs: [], texts: /* @__PURE__ */ new Map(), entries: [], isWhole: false };
    for (const [key, text] of pairs) {
      const [kind] = key.slice(front.length).split("/");
      const value = JSON.parse(text);
      if (kind === "base")
        record.kept = Object.assign(kept, value);
      else if (kind === "log")
        kept.log.push(value);
      else if (kind === "sent")
        kept.sent = value;
      else
        kept.queue.push(value);
      if (kind === "log")
        record.logs.push(key);
      else if (kind !== "base")
        record.texts.set(key, text);
    }
    record.queued = kept.queue.length;
    record.waits = record.queued > 0;
    return record;
  }
  function changesOf({ machine }, record) {
    const { version, last, inFlight, queue } = machine;
    const { front } = record;
    const changes = [];
    if (version !== null && (record.isWhole || record.logs.length > MOST_LOGGED)) {
      const text = JSON.stringify({ version, last, data: machine.readable(machine.confirmed) });
      changes.push([`${front}base`, text], ...record.logs.map((key) => [key, null]));
      Object.assign(record, { isWhole: false, logs: [], entries: [] });
    }
    for (const entry of record.entries.splice(0)) {
      const key = `${front}log/${padded(entry.version)}`;
      changes.push([key, JSON.stringify(entry)]);
      record.logs.push(key);
    }
    const texts = /* @__PURE__ */ new Map();
    for (const queued of queue)
      texts.set(`${front}wait/${padded(queued.number)}`, JSON.stringify(queued));
    if (inFlight !== null)
      texts.set(`${front}sent`, JSON.stringify({ ...inFlight, ...RESTORED }));
    for (const key of record.texts.keys())
      if (!texts.has(key))
        changes.push([key, null]);
    for (const [key, text] of texts)
      if (record.texts.get(key) !== text)
        changes.push([key, text]);
    record.texts = texts;
    record.queued = queue.length;
    return changes;
  }
  function removalsOf({ front, logs, texts }) {
    return [`${front}base`, ...logs, ...texts.keys()].map((key) => [key, null]);
  }
  var Keeper = class {
    /**
     * @param {StorageMethods} methods
     * @param {any} connection
     * @param {{front: string, release: () => void} | null} held the only record, if its lock is held
     */
    constructor(methods, connection, held = null) {
      this.methods = methods;
      this.connection = connection;
      this.held = held;
      this.records = /* @__PURE__ */ new Map();
      this.dirty = /* @__PURE__ */ new Set();
      this.changes = /* @__PURE__ */ new Map();
      this.releases = [];
      this.isUrgent = false;
      this.writing = null;
      this.timer = null;
      this.apart = /* @__PURE__ */ new Set();
      this.hasFailed = false;
    }
    // Opening ------------------------------------------------------------------------------------------------------
    /** Reads a document of the storage. Until then it isn't loaded, and its connection isn't used. */
    async open(core) {
      const { connection, records } = this;
      try {
        const record = await this.take(core);
        if (core.machine.state === "closed") {
          record.release();
          return;
        }
        records.set(core, record);
        core.run({ type: "restored", kept: record.kept });
      } catch (error) {
        records.delete(core);
        connection.reportStorage(error);
        core.run({ type: "restored", kept: null });
        core.run({ type: "saved" });
      }
      if (connection.state === "connected" && core.machine.state === "offline")
        core.run({ type: "connected" });
    }
    // Takes the record with pending edits, or else the newest, or a new one.
    async take({ collection, id }) {
      if (this.held !== null)
        return this.read(this.held.front, this.held.release);
      const document = JSON.stringify([collection, id]);
      const places = placesOf(await this.methods.keys(document));
      const free = [];
      for (const { front } of places) {
        const release = await this.methods.lock(front);
        const record = release && await this.read(front, release);
        if (record?.kept)
          free.push(record);
        else
          release?.();
      }
      if (free.length === 0)
        return this.create(document, places);
      const rank = ({ kept, texts }) => texts.size > 0 ? Infinity : kept.version + kept.log.length;
      const best = free.reduce((one, other) => rank(other) > rank(one) ? other : one);
      for (const other of free)
        if (other !== best)
          this.letGo(other);
      return best;
    }
    async read(front, release) {
      return recordOf(front, await this.methods.read(front), release);
    }
    // A new record begins with the confirmed document of another client's.
    async create(document, places) {
      const front = `${document}/${Math.random()}/`;
      const record = recordOf(front, [], await this.methods.lock(front));
      if (places.length === 0)
        return record;
      const { kept } = await this.read(places[0].front, null);
      if (kept !== null)
        Object.assign(record, { kept: { ...kept, sent: null, queue: [] }, isWhole: true });
      return record;
    }
    // Removes a record that isn't taken. One with edits stays: they are sent once there is a connection.
    letGo(record) {
      if (record.texts.size > 0)
        record.release();
      else
        this.end(record, removalsOf(record));
    }
    // Writing ------------------------------------------------------------------------------------------------------
    /** Looks at a transition of a document, and writes what it has changed. */
    observe(core, { seen, replaced }) {
      const record = this.records.get(core);
      if (record === void 0)
        return;
      record.isWhole = record.isWhole || replaced;
      record.entries.push(...seen);
      this.dirty.add(core);
      if (core.machine.pending > 0 || record.texts.size > 0)
        this.schedule();
      else
        this.writeLater();
    }
    schedule() {
      this.isUrgent = true;
      this.writing = this.writing || this.writeAll();
    }
    writeLater() {
      const started = () => {
        this.timer = null;
        this.schedule();
      };
      this.timer = this.timer || this.connection.clock.setTimeout(started, LATER);
    }
    // (the edits of this tick are written together)
    async writeAll() {
      await null;
      while (this.isUrgent) {
        this.isUrgent = false;
        await this.write().then(() => this.hasFailed = false, (error) => this.recover(error));
      }
      this.writing = null;
    }
    async write() {
      for (const core of this.dirty)
        this.add(changesOf(core, this.records.get(core)));
      this.dirty.clear();
      const { changes, releases } = this;
      const sent = [...this.records.keys()].map((core) => ({ core, ...core.machine.inFlight }));
      Object.assign(this, { changes: /* @__PURE__ */ new Map(), releases: [] });
      try {
        if (changes.size > 0)
          await this.methods.write([...changes]);
      } catch (error) {
        for (const record of this.records.values())
          record.waits = record.waits || record.queued > 0;
        this.changes = new Map([...changes, ...this.changes]);
        this.releases.push(...releases);
        throw error;
      }
      for (const record of this.records.values())
        record.waits = record.queued > 0;
      for (const release of releases)
        release();
      for (const { core, text, saved } of sent)
        if (saved === false)
          core.run({ type: "saved", text });
    }
    add(changes) {
      for (const [key, text] of changes)
        this.changes.set(key, text);
    }
    // Releases a record after its last changes.
    end({ release }, changes) {
      this.add(changes);
      this.releases.push(release);
      this.schedule();
    }
    /** The document is closed. Its record stays, if it isn't to be forgotten. */
    leave(core, forgets) {
      const record = this.records.get(core);
      if (record === void 0)
        return;
      if (this.hasFailed) {
        record.isWhole = true;
        for (const key of record.texts.keys())
          record.texts.set(key, "");
      }
      const changes = changesOf(core, record);
      this.records.delete(core);
      this.dirty.delete(core);
      this.end(record, forgets ? [...changes, ...removalsOf(record)] : changes);
    }
    async close() {
      this.connection.clock.clearTimeout(this.timer);
      await Promise.all([...this.apart].map((client) => client.close()));
      while (this.writing !== null)
        await this.writing;
    }
    // Failures -----------------------------------------------------------------------------------------------------
    // Without a connection the write is tried again. With one, the client continues without a storage.
    async recover(error) {
      if (!this.hasFailed)
        this.connection.reportStorage(error);
      this.hasFailed = true;
      if (this.connection.state === "connected")
        await this.giveUp();
      if (this.records.size > 0) {
        this.writeLater();
      } else if (!this.isUrgent) {
        this.changes.clear();
        for (const release of this.releases.splice(0))
          release();
      }
    }
    // Removes the records, so that the documents can continue without them. The next start sends the edits that wait in
    // a record that stays, so they aren't sent here.
    async giveUp() {
      const all = [...this.records];
      const removals = [];
      let isRemoved = true;
      try {
        for (const [, { front }] of all)
          for (const key of await this.methods.keys(front))
            removals.push([key, null]);
        await this.methods.write(removals);
      } catch {
        isRemoved = false;
      }
      for (const [core, { front, waits, release }] of all) {
        if (!this.records.has(core) || !isRemoved && waits)
          continue;
        for (const key of this.changes.keys())
          if (key.startsWith(front))
            this.changes.delete(key);
        this.records.delete(core);
        this.dirty.delete(core);
        release();
        core.run({ type: "saved" });
      }
    }
    // Edits of closed tabs -----------------------------------------------------------------------------------------
    /** There is a connection, or a sign of life of it. */
    beat() {
      if (this.hasFailed)
        this.schedule();
      else if (this.held === null)
        this.look().catch((error) => this.connection.reportStorage(error));
    }
    // Sends the edits of records whose locks are free.
    async look() {
      for (const { front, document, pending } of placesOf(await this.methods.keys(""))) {
        const release = pending ? await this.methods.lock(front) : null;
        if (release !== null)
          this.takeOver(front, document, release);
      }
    }
    takeOver(front, document, release) {
      const { connection } = this;
      const [collection, id] = JSON.parse(document);
      if (connection.state !== "connected") {
        release();
      } else if (connection.documents.has(document)) {
        const keeperFor = (one) => new Keeper(this.methods, one, { front, release });
        const client = connection.sendApart({ _keeperFor: keeperFor }, collection, id, () => this.apart.delete(client));
        this.apart.add(client);
      } else {
        release();
        connection.resume(collection, id);
      }
    }
  };

  // src/storage.js
  function customStorage(methods) {
    const keeperFor = (connection) => new Keeper(methods, connection);
    return (
      /** @type {any} */
      { documents: () => documentsOf(methods), _keeperFor: keeperFor }
    );
  }
  function indexedDbStorage(name) {
    return customStorage(new Database(name));
  }
  var STORE = "texts";
  function settled(request, done = "onsuccess", failed = "onerror") {
    return new Promise((resolve, reject) => {
      request[done] = () => resolve(request.result);
      request[failed] = () => reject(request.error);
    });
  }
  function rangeOf(front) {
    return globalThis.IDBKeyRange.bound(front, `${front}￿`);
  }
  var Database = class {
    constructor(name) {
      this.name = name;
      this.opened = null;
    }
    open() {
      const request = globalThis.indexedDB.open(this.name, 1);
      request.onupgradeneeded = () => request.result.createObjectStore(STORE, { keyPath: "key" });
      return settled(request);
    }
    // (a database that the user removes is closed, and opened again by the next call)
    async transaction(mode, options) {
      try {
        this.opened = this.opened || this.open();
        return (await this.opened).transaction(STORE, mode, options);
      } catch (error) {
        this.opened = null;
        throw error;
      }
    }
    async keys(front) {
      const transaction = await this.transaction("readonly");
      return settled(transaction.objectStore(STORE).getAllKeys(rangeOf(front)));
    }
    async read(front) {
      const transaction = await this.transaction("readonly");
      const pairs = await settled(transaction.objectStore(STORE).getAll(rangeOf(front)));
      return pairs.map(({ key, text }) => [key, text]);
    }
    async write(changes) {
      const transaction = await this.transaction("readwrite", { durability: "strict" });
      const done = settled(transaction, "oncomplete", "onabort");
      const store = transaction.objectStore(STORE);
      try {
        for (const [key, text] of changes) {
          if (text === null)
            store.delete(key);
          else
            store.put({ key, text });
        }
        if (transaction.commit)
          transaction.commit();
      } catch (error) {
        transaction.abort();
        await done.catch(() => {
        });
        throw error;
      }
      await done;
    }
    lock(lock) {
      return new Promise((resolve, reject) => {
        const hold = (held) => held ? new Promise(resolve) : resolve(null);
        globalThis.navigator.locks.request(`${this.name} ${lock}`, { ifAvailable: true }, hold).catch(reject);
      });
    }
  };

  // src/undo.js
  var UndoManager = class extends Emitter {
    /**
     * @param {import('./doc.js').Doc<any>} doc
     * @param {UndoOptions} [options]
     */
    constructor(doc, options = {}) {
      super();
      const { groupBy = 500, limit = 100 } = options;
      const state = { doc, groupBy, limit, undos: [], redos: [], isOpen: false, target: null, emitted: "0 0" };
      const stops = [observe(doc, (change) => receive(state, change)), doc.on("change", () => emitChange(this))];
      Object.assign(state, { stops });
      Object.defineProperty(this, "_undo", { value: () => state });
    }
    /** @returns {boolean} */
    get canUndo() {
      return stateOf2(this).undos.length > 0;
    }
    /** @returns {boolean} */
    get canRedo() {
      return stateOf2(this).redos.length > 0;
    }
    /**
     * Undoes the last group of own edits. If its inverse is refused at once, no group can be undone any more.
     * @returns {Promise<{version: number | null}>} as of `submit`; null if there was nothing to undo
     */
    undo() {
      return applyLast(this, "undos", "redos");
    }
    /**
     * Redoes what was undone last, if no own edit was made since.
     * @returns {Promise<{version: number | null}>} as of `submit`; null if there was nothing to redo
     */
    redo() {
      return applyLast(this, "redos", "undos");
    }
    /** Forgets what can be undone and redone. */
    clear() {
      Object.assign(stateOf2(this), { undos: [], redos: [] });
      emitChange(this);
    }
    /** Ends the manager: later edits can't be undone by it. */
    stop() {
      for (const stop of stateOf2(this).stops.splice(0))
        stop();
      this.clear();
    }
  };
  function stateOf2(manager) {
    return manager._undo();
  }
  function emitChange(manager) {
    const state = stateOf2(manager);
    const { canUndo, canRedo } = manager;
    const counted = `${state.undos.length} ${state.redos.length}`;
    if (counted === state.emitted)
      return;
    state.emitted = counted;
    manager.emit("change", { canUndo, canRedo });
  }
  function applyLast(manager, from, target) {
    const state = stateOf2(manager);
    const group = state[from].pop();
    if (group === void 0)
      return Promise.resolve({ version: null });
    state.target = target;
    try {
      return submitAtOnce(state.doc, group.operation, manager);
    } catch (error) {
      state[from] = [];
      emitChange(manager);
      return Promise.reject(error);
    } finally {
      state.target = null;
    }
  }
  function receive(state, { operation, local, before }) {
    if (operation === null) {
      Object.assign(state, { undos: [], redos: [] });
    } else if (local) {
      keepInverse(state, withoutRemovedValues(invert(operation, before)));
    } else {
      state.undos = transformGroups(state.undos, operation);
      state.redos = transformGroups(state.redos, operation);
    }
  }
  function keepInverse(state, inverse) {
    const { doc, target, undos, groupBy, limit } = state;
    state.target = null;
    const time = doc._doc().machine.now();
    const length = lengthOf(inverse);
    const last = state.isOpen ? undos[undos.length - 1] : void 0;
    if (target !== null) {
      state[target].push({ operation: inverse, length, time });
    } else if (last && isJoined(last, inverse, length, time - groupBy)) {
      Object.assign(last, { operation: compose(inverse, last.operation), length: last.length + length, time });
    } else {
      undos.push({ operation: inverse, length, time });
    }
    state.isOpen = target === null;
    if (target === null)
      state.redos = [];
    if (state.undos.length > limit)
      state.undos.shift();
  }
  function isJoined(last, inverse, length, since) {
    return last.time > since && isComposable(last.operation.length + inverse.length, last.length + length);
  }
  function transformGroups(groups, operation) {
    const kept = [];
    let other = operation;
    for (const group of groups.slice().reverse()) {
      const crossed = orRefusal(() => cross(group.operation, other), () => null);
      if (crossed === null)
        break;
      other = crossed.right;
      if (crossed.left.length > 0)
        kept.push({ ...group, operation: crossed.left });
    }
    return kept.reverse();
  }
  return __toCommonJS(src_exports);
})();
