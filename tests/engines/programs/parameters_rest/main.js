import { print } from "host";
function f(a, ...r) { print(a, r.length, r.join("-"), Array.isArray(r)); r.push(1); return r; }
f();
f(1);
let r = f(1, 2, 3);
print(r.length, f(1, 2) === f(1, 2));
((...all) => print(all.length, arguments0(...all)))(4, 5);
function arguments0() { return arguments.length; }
