import { print } from "host";
let f = function g(n) {
  try { g = 1; } catch (e) { print(e instanceof TypeError); }
  return n ? n * g(n - 1) : 1;
};
print(f(3), typeof g1);
let h = f;
f = null;
print(h(2));
var g1 = function h1() { let h1 = 5; return h1; };
print(g1());
