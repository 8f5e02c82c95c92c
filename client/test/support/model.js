/*
 * A model of the server's operations. It is written from the definitions (crates/sdb_transform/specs/Transform.antt,
 * docs/TRANSFORM.md) alone, and shares no line with client/src.
 */

const MAX = Number.MAX_SAFE_INTEGER;

export class Failure extends Error {
  constructor(code) {
    super(code);
    this.code = code;
  }
}

function notApplied() {
  throw new Failure('ERR_OT_OP_NOT_APPLIED');
}

const own = (object, key) => Object.prototype.hasOwnProperty.call(object, key);
const isObject = (value) => value !== null && typeof value === 'object' && !Array.isArray(value);

export function kindOf(component) {
  if (own(component, 'na')) return 'na';
  if (own(component, 'si')) return 'si';
  if (own(component, 'sd')) return 'sd';
  if (own(component, 'li')) return own(component, 'ld') ? 'lr' : 'li';
  if (own(component, 'ld')) return 'ld';
  if (own(component, 'oi')) return own(component, 'od') ? 'or' : 'oi';
  return 'od';
}

// Apply, in place on a deep copy ---------------------------------------------------------------------------------

function isInsidePair(text, offset) {
  return offset > 0 && offset < text.length && text.codePointAt(offset - 1) > 0xffff;
}

function hasStep(value, step) {
  if (Array.isArray(value)) return typeof step === 'number' && step < value.length;
  return isObject(value) && typeof step === 'string' && own(value, step);
}

function put(holder, key, value) {
  Object.defineProperty(holder, key, { value, writable: true, enumerable: true, configurable: true });
}

function textAfter(text, kind, component, at) {
  if (typeof text !== 'string' || at > text.length || isInsidePair(text, at)) notApplied();
  if (kind === 'si') return text.substring(0, at) + component.si + text.substring(at);
  if (text.substring(at, at + component.sd.length) !== component.sd) notApplied();
  return text.substring(0, at) + text.substring(at + component.sd.length);
}

function changeList(list, kind, component, at) {
  if (!Array.isArray(list) || typeof at !== 'number' || at > list.length) notApplied();
  if (kind !== 'li' && at === list.length) notApplied();
  list.splice(at, kind === 'li' ? 0 : 1, ...(kind === 'ld' ? [] : [structuredClone(component.li)]));
}

export function applyOne(document, component) {
  const box = { root: structuredClone(document) };
  const kind = kindOf(component);
  const path = ['root', ...component.p];
  const last = kind === 'na' ? null : path.pop();
  let [holder, key, here] = [null, null, box];
  for (const step of path) {
    if (!hasStep(here, step)) notApplied();
    [holder, key, here] = [here, step, here[step]];
  }
  if (kind === 'na') {
    if (typeof here !== 'number' || Math.abs(here + component.na) > MAX) notApplied();
    put(holder, key, here + component.na);
  } else if (kind === 'si' || kind === 'sd') {
    put(holder, key, textAfter(here, kind, component, last));
  } else if (kind === 'li' || kind === 'ld' || kind === 'lr') {
    changeList(here, kind, component, last);
  } else {
    if (!isObject(here)) notApplied();
    if (kind === 'od') delete here[last];
    else put(here, last, structuredClone(component.oi));
  }
  return box.root;
}

export const apply = (document, operation) => operation.reduce(applyOne, document);

// Transform: the acts that replace `c` after `o` in one container, as [last step, other members] ------------------

function raised(number, by) {
  return number + by <= MAX ? number + by : notApplied();
}

function cutAt(text, offset) {
  return isInsidePair(text, offset) ? notApplied() : offset;
}

function textActs(isLeft, c, o, at, other) {
  const same = [[at, {}]];
  if (own(c, 'si') && own(o, 'si')) {
    return other < at || (other === at && !isLeft) ? [[raised(at, o.si.length), {}]] : same;
  }
  if (own(c, 'si')) {
    if (at <= other) return same;
    return at <= other + o.sd.length ? [[other, {}]] : [[at - o.sd.length, {}]];
  }
  if (own(o, 'si')) {
    if (other <= at) return [[raised(at, o.si.length), {}]];
    if (at + c.sd.length <= other) return same;
    const moved = raised(at, o.si.length);
    const cut = cutAt(c.sd, other - at);
    return [[at, { sd: c.sd.substring(0, cut) }], [moved, { sd: c.sd.substring(cut) }]];
  }
  if (other + o.sd.length <= at) return [[at - o.sd.length, {}]];
  if (at + c.sd.length <= other) return same;
  const from = cutAt(c.sd, Math.max(0, other - at));
  const to = cutAt(c.sd, Math.min(c.sd.length, other + o.sd.length - at));
  const rest = c.sd.substring(0, from) + c.sd.substring(to);
  return rest === '' ? [] : [[Math.min(at, other), { sd: rest }]];
}

function listActs(isLeft, kind, o, at, other) {
  const same = [[at, {}]];
  const after = kindOf(o);
  if (after === 'li') {
    const isMoved = other < at || (other === at && (kind !== 'li' || !isLeft));
    return isMoved ? [[raised(at, 1), {}]] : same;
  }
  if (after === 'ld') {
    if (other < at) return [[at - 1, {}]];
    if (other > at || kind === 'li') return same;
    return kind === 'ld' ? [] : [[at, { ld: undefined }]];
  }
  if (other !== at || kind === 'li') return same;
  return kind === 'lr' && isLeft ? [[at, { ld: o.li }]] : [];
}

function keyActs(isLeft, kind, o, key, other) {
  const same = [[key, {}]];
  if (key !== other) return same;
  if (kind === 'od') return own(o, 'od') ? [] : same;
  if (own(o, 'oi')) return isLeft ? [[key, { od: o.oi }]] : [];
  return kind === 'or' ? [[key, { od: undefined }]] : same;
}

const FAMILY = { si: 'text', sd: 'text', li: 'list', ld: 'list', lr: 'list', oi: 'key', od: 'key', or: 'key', na: 'na' };

function actsAfter(side, c, o, at, other) {
  const isLeft = side === 'left';
  const kind = kindOf(c);
  const family = FAMILY[kind];
  if (family === 'na' || family !== FAMILY[kindOf(o)]) return [[at, {}]];
  if (family === 'text') return textActs(isLeft, c, o, at, other);
  return (family === 'list' ? listActs : keyActs)(isLeft, kind, o, at, other);
}

function containerOf(component) {
  return kindOf(component) === 'na' ? component.p : component.p.slice(0, -1);
}

const begins = (path, front) => front.length <= path.length && front.every((step, at) => step === path[at]);

function withActs(c, container, acts) {
  return acts.map(([last, members]) => {
    const made = { ...c, ...members, p: kindOf(c) === 'na' ? c.p : [...container, last] };
    for (const member of Object.keys(made)) if (made[member] === undefined) delete made[member];
    return made;
  });
}

// The step of c's path that is an item or member of o's container, or null if it is removed.
function stepAfter(o, step, at) {
  const kind = kindOf(o);
  if (typeof step === 'string') return (kind === 'od' || kind === 'or') && at === step ? null : step;
  if (kind === 'li') return at <= step ? raised(step, 1) : step;
  if (kind === 'ld') return at < step ? step - 1 : at === step ? null : step;
  return kind === 'lr' && at === step ? null : step;
}

export function transform(side, c, o) {
  const [container, others] = [containerOf(c), containerOf(o)];
  if (begins(container, others)) {
    const at = o.p[others.length];
    if (container.length === others.length) {
      return withActs(c, container, actsAfter(side, c, o, c.p[container.length], at));
    }
    const step = stepAfter(o, container[others.length], at);
    return step === null ? [] : [{ ...c, p: [...others, step, ...c.p.slice(others.length + 1)] }];
  }
  const removed = { ld: 'ld', lr: 'ld', od: 'od', or: 'od' }[kindOf(c)];
  if (!removed || !begins(others, c.p)) return [c];
  try {
    return [{ ...c, [removed]: applyOne(c[removed], { ...o, p: o.p.slice(c.p.length) }) }];
  } catch (error) {
    if (!(error instanceof Failure)) throw error;
    return [c];
  }
}

// Crosses operations by their definition: the heads first, then each with the other's rest.
export function cross(left, right) {
  if (left.length === 0 || right.length === 0) return { left, right };
  const upper = cross(transform('left', left[0], right[0]), right.slice(1));
  const lower = cross(left.slice(1), transform('right', right[0], left[0]));
  const rest = cross(lower.left, upper.right);
  return { left: [...upper.left, ...rest.left], right: [...lower.right, ...rest.right] };
}
