export { apply } from "./apply.cjs";
export { compose } from "./compose.cjs";
export { complete, invert } from "./invert.cjs";
export { textChange, transformOffset, transformPosition } from "./text.cjs";
export { cross, transformComponent } from "./transform.cjs";
