export let k = 1, p = 2;
export { same } from "./r.js";
