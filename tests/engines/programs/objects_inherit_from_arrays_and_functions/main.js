import { print } from "host";
let a = [1, 2];
let o = Object.create(a);
print(o.length, o[0], o.hasOwnProperty(0));
o[0] = 9;
print(o[0], a[0], o.length);
function f() { return "called"; }
let g = Object.create(f);
g.k = 1;
print(typeof g, g.k);
try { g(); } catch (e) { print(e instanceof TypeError); }
