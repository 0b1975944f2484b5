import { print } from "host";
import { x as y, f as g } from "./main.js";
import * as self from "./main.js";
print(g(), typeof self.f, g === f);
try { y; } catch (e) { print(e instanceof ReferenceError); }
export let x = 3;
export function f() { return "f"; }
print(y, self.x);
