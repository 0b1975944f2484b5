import { print } from "host";
import * as a from "./a.js";
let done = false;
export let B;
try { B = class extends a.A { }; } catch (e) { print("not yet", e instanceof ReferenceError); }
export { later };
let later = () => { };
import "./c.js";
