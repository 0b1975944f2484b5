import { print } from "host";
class A { m1(...a) { return [this.k, ...a].join(); } get f() { return (...a) => a.length; } }
let log = v => { print(v); return v; };
class B extends A {
  constructor() { super(); this.k = "b"; }
  all() { return super["m" + log(1)](log("x"), ...[log("y")]) + super.f(1, 2) + (super.m1, super.none === undefined); }
  *each() { yield super.m1(yield 1, yield 2); yield super["m" + (yield 3)](4); }
}
let b = new B();
print(b.all());
let it = b.each();
print(it.next().value, it.next("p").value, it.next("q").value, it.next().value, it.next(1).value);
