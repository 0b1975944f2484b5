import { print } from "host";
let x = "m";
function f(x) {
  return [function () { return x; }, function () { let x = "inner"; return () => x; }, () => { x += "!"; return x; }];
}
let [a, b, c] = f("p");
print(a(), b()(), c(), a(), x);
