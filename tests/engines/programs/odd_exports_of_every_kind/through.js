import * as kinds from "./kinds.js";
export { kinds };
export * from "./kinds.js";
export { x as renamed } from "./kinds.js";
export { default as named } from "./default.js";
import own from "./default.js";
export default own + 1;
export { own as own2 };
export const star = "star";
export const { p, q } = { p: 1, q: { r: 2 } }, [...each] = "ab";
export { fn as alias };
export function fn() { return "fn"; }
