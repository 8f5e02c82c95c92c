/* Random changes of a draft in place, as a program makes them. */

/** Returns a function that changes a draft: an object with the member `root`, or a list or object below it. */
export function mutator({ random, pick, data, edited }) {
  const LISTS = [
    (list) => list.push(data(2)),
    (list) => list.unshift(data(1), data(1)),
    (list) => list.pop(),
    (list) => list.shift(),
    (list) => list.reverse(),
    (list) => list.sort((one, other) => (JSON.stringify(one) < JSON.stringify(other) ? -1 : 1)),
    (list) => list.splice(random(list.length + 1), random(3), data(1)),
    (list) => list.push(...list.splice(0, 1)), // moves the first item to the end
    (list) => list.length > 0 && list.push(pick(list)), // the same item twice
    (list) => list.forEach((item, at) => (list[at] = random(2) ? item : data(1))),
    (list) => list.splice(0),
  ];
  const OBJECTS = [
    (object) => (object[pick(['k', 'm', 'x'])] = data(2)),
    (object) => delete object[pick(['k', 'm', 'x'])],
    (object) => Object.assign(object, { k: 1, m: 'text' }),
  ];

  function inside(holder) {
    const keys = Object.keys(holder);
    if (keys.length === 0) return;
    const key = pick(keys);
    if (typeof holder[key] === 'string') holder[key] = edited(holder[key]);
    else if (typeof holder[key] === 'number') holder[key] += random(3) - 1;
    else if (holder[key] !== null && typeof holder[key] === 'object') mutate(holder[key]);
    else holder[key] = data(1);
  }

  function mutate(draft) {
    if (draft === null || typeof draft !== 'object') return;
    for (let more = random(3); more >= 0; more -= 1) {
      if (random(2)) inside(draft);
      else pick(Array.isArray(draft) ? LISTS : OBJECTS)(draft);
    }
  }

  return mutate;
}
