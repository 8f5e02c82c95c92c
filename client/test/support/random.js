/* Random choices that a seed determines. */

/** Returns functions for a random whole number from 0 to below the given one, and a random item of a list. */
export function choices(seed) {
  let state = (Math.imul(Number(seed), 2654435761) >>> 0) || 1;
  const random = (below) => {
    state ^= state << 13;
    state >>>= 0;
    state ^= state >>> 17;
    state ^= state << 5;
    state >>>= 0;
    return state % below;
  };
  return { random, pick: (list) => list[random(list.length)] };
}

/** The seed of a run: of the environment, or a new one. A failure names it. */
export function seedOf(name) {
  const seed = process.env.SEED === undefined ? (Date.now() * 2 + process.pid) % 1000000 : Number(process.env.SEED);
  console.log(`${name}: SEED=${seed}`);
  return seed;
}
