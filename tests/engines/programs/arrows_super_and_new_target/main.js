import { print } from "host";
class A { m() { return "A" + this.k; } get p() { return "p" + this.k; } }
class B extends A {
  constructor(k) { let init = () => super(); init(); this.k = k; this.t = (() => new.target === B)(); }
  m() { let f = () => { let g = () => super.m() + super.p; return g(); }; return f(); }
}
let b = new B(5);
print(b.m(), b.t);
function F() { return () => new.target; }
print(F()() === undefined, new F()() === F);
