import { print } from "host";
import "./b.js";
export let x = 1;
export function f() { return 7; }
print("main", x);
