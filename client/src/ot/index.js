/**
 * Operational transformation of type json0, as the server does it. It is of use without the client.
 * @module
 */
export { apply } from './apply.js';
export { compose } from './compose.js';
export { complete, invert } from './invert.js';
export { textChange, transformOffset, transformPosition } from './text.js';
export { cross, transformComponent } from './transform.js';
