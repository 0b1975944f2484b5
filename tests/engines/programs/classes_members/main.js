import { print } from "host";
class A {
  constructor(x) { this.x = x; }
  get d() { return this.x * 2; }
  set d(v) { this.x = v; }
  m() { return "A" + this.x; }
  static s() { return "s" + (this === A); }
  static get k() { return "k"; }
  [(() => "c" + 1)()]() { return "computed"; }
  "a b"() { return "text"; }
  5() { return "number"; }
  *g() { yield this.x; }
}
let a = new A(3);
print(a.m(), a.d, A.s(), A.k, a.c1(), a["a b"](), a[5](), a.g().next().value);
a.d = 7;
print(a.x, a.d, a instanceof A, typeof A, a.constructor === A);
