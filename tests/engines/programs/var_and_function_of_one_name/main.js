import { print } from "host";
function f() {
  print(typeof g);
  var g = 1;
  function g() {}
  print(typeof g);
  var h;
  function h() { return 2; }
  print(h());
}
f();
