import * as up from "../main.js";
export { up };
export function f() { return this === undefined ? "none" : typeof this; }
export let v = 1;
