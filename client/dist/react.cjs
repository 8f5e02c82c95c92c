/* Navirotsohy 0.1.0, MIT license. Built from client/src by client/tools/build.js: don't edit. */
var __defProp = Object.defineProperty;
var __getOwnPropDesc = Object.getOwnPropertyDescriptor;
var __getOwnPropNames = Object.getOwnPropertyNames;
var __hasOwnProp = Object.prototype.hasOwnProperty;
var __export = (target, all) => {
  for (var name in all)
    __defProp(target, name, { get: all[name], enumerable: true });
};
var __copyProps = (to, from, except, desc) => {
  if (from && typeof from === "object" || typeof from === "function") {
    for (let key of __getOwnPropNames(from))
      if (!__hasOwnProp.call(to, key) && key !== except)
        __defProp(to, key, { get: () => from[key], enumerable: !(desc = __getOwnPropDesc(from, key)) || desc.enumerable });
  }
  return to;
};
var __toCommonJS = (mod) => __copyProps(__defProp({}, "__esModule", { value: true }), mod);

// src/react.js
var react_exports = {};
__export(react_exports, {
  docHook: () => docHook
});
module.exports = __toCommonJS(react_exports);
function docHook(useSyncExternalStore) {
  const subscribers = /* @__PURE__ */ new WeakMap();
  return function useDoc(doc, path = []) {
    if (!subscribers.has(doc))
      subscribers.set(doc, (listener) => doc.on("change", listener));
    const read = () => doc.valueAt(path);
    return useSyncExternalStore(subscribers.get(doc), read, read);
  };
}
