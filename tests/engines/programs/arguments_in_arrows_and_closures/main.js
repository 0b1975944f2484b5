import { print } from "host";
function f() {
  let g = () => arguments[0];
  let h = function () { return arguments[0]; };
  let k = () => { let m = () => arguments.length; return m(); };
  print(g("no"), h("own"), k(1, 2, 3, 4));
}
f("outer", 2);
