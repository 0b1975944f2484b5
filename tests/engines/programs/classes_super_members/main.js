import { print } from "host";
class A {
  constructor() { this.v = 1; }
  m(x) { return "A.m" + x + this.v; }
  get p() { return "A.p" + this.v; }
  static s() { return "A.s" + (this === B); }
}
class B extends A {
  m(x) { return "B+" + super.m(x + 1); }
  get p() { return "B+" + super.p; }
  n() { let k = "m"; return super[k](9) + super["p"]; }
  static s() { return "B+" + super.s(); }
  none() { return super.none; }
}
let b = new B();
b.v = 2;
print(b.m(1), b.p, b.n(), B.s(), b.none());
