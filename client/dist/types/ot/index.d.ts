export { apply } from "./apply.js";
export { compose } from "./compose.js";
export { complete, invert } from "./invert.js";
export { textChange, transformOffset, transformPosition } from "./text.js";
export { cross, transformComponent } from "./transform.js";
