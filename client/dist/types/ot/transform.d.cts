/** @typedef {import('./component.cjs').Component} Component */
/** @typedef {import('./component.cjs').Operation} Operation */
export function shareFront(path: any, other: any, length: any): boolean;
/**
 * Transforms a component against a concurrent one.
 * @param {Component} component
 * @param {Component} other
 * @param {'left' | 'right'} side of `component`, which decides if both have the same place
 * @returns {Component[]}
 * @throws {Refusal} if a deleted text would be cut inside a surrogate pair, or an index gets too large
 */
export function transformComponent(component: Component, other: Component, side: 'left' | 'right'): Component[];
/**
 * Transforms two concurrent operations against each other.
 * @param {Operation} left the one that is stored later
 * @param {Operation} right the one that is stored before it
 * @returns {{left: Operation, right: Operation}}
 * @throws {Refusal} if one can't be transformed
 */
export function cross(left: import("./component.cjs").Operation, right: import("./component.cjs").Operation): {
    left: import("./component.cjs").Operation;
    right: import("./component.cjs").Operation;
};
export type Component = import('./component.cjs').Component;
export type Operation = import('./component.cjs').Operation;
