import { print } from "host";
let x = 0;
function f(x = 1, g = () => x) { { let x = 3; for (let x = 4; x < 5; x++) { { const x = 6; try { throw 7; } catch (x) { print(x, g()); } print(x); } print(x); } print(x); } print(x); return class x { m() { return typeof x; } }; }
print(new (f())().m(), x);
(function x() { print(typeof x); { let x = 1; print(x); } })();
x: for (let x of [8]) { print(x); continue x; }
