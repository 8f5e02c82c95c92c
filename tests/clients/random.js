/* Random choices that a seed determines. */

/** Returns a random whole number from 0 to below the given one, or a random item of a list. */
export function choices(seed) {
  let state = Number(seed);
  const random = (below) => {
    state = (Math.imul(state, 1664525) + 1013904223) >>> 0;
    return Math.floor((state / 4294967296) * below);
  };
  return { random, pick: (list) => list[random(list.length)] };
}
