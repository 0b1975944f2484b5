import { print } from "host";
function f(a, g) {
  var a;
  a = 5;
  return a + g;
}
print(f(1, 2));
function h(a, s = v => { a = v; }) { s(7); return a; }
print(h(1));
