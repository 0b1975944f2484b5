import { print } from "host";
let n = 0;
let next = tag => { print(tag, ++n); return n; };
function f(a = next("a"), b = a + 10, c = next("c")) { print(a, b, c, arguments.length); }
f();
f(5);
f(undefined, undefined, 7);
f(null, 0, "");
