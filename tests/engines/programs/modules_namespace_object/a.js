import * as self from "./a.js";
export let x = 1;
export function inc() { x++; }
export function f() { return "f"; }
export default "D";
export { self };
export function method() { return this === undefined ? "plain" : this === self; }
