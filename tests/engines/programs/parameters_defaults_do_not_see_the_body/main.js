import { print } from "host";
let x = "module";
function f(a = () => x, b = x) {
  var x = "body";
  print(a(), b, x);
}
f();
function g(a, h = () => a) {
  var a = 2;
  print(a, h());
  a = 3;
  print(a, h());
}
g(1);
function k(a, h = () => a) {
  var a;
  print(a);
  a = 9;
  print(a, h());
}
k(4);
