import { print } from "host";
function f(a = (arguments[1] = 7, arguments.length = 1, 1), b = 2, ...r) { print(a, b, r.length, arguments[1], arguments.length); }
f(undefined, 5, 6);
