import { print } from "host";
function f(a, b) {
  a = 9;
  arguments[1] = 8;
  print(a, b, arguments[0], arguments[1], arguments.length);
}
f(1, 2);
f(1);
function g(a = 5) { print(a, arguments.length, arguments[0]); }
g();
g(undefined);
