import { print } from "host";
function f(k) {
  switch (k) {
    case 0: let a = "set"; print(a); break;
    case 1: return a;
    default: a = 2;
  }
  return "end";
}
print(f(0));
for (let k = 1; k < 3; k++) try { print(f(k)); } catch (e) { print(k, e instanceof ReferenceError); }
