import { print } from "host";
function* g() {
  let A = class { m() { return "A"; } };
  class B extends (yield 1) { [yield 2]() { return "computed" + super.m(); } static [yield 3]() { return "static"; } }
  let b = new B();
  print(b.k(), B.s(), b.m());
  return B;
}
class P { m() { return "P"; } }
let o = g();
o.next();
o.next(P); o.next("k");
print(o.next("s").value.prototype instanceof P);
