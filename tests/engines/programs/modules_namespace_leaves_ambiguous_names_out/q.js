export let k = 3, q = 4;
export { same } from "./r.js";
