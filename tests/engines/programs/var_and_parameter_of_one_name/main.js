import { print } from "host";
function f(a, b) {
  var a;
  var b = 5;
  print(a, b);
}
f(1, 2);
function g(a) { { var a = 9; } return a; }
print(g(1));
