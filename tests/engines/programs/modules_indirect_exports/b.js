export { n as x, n as y, default as d } from "./a.js";
import { n } from "./a.js";
export { n as z };
