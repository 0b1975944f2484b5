import { print } from "host";
function inner() { return new.target === undefined; }
class A { constructor() { this.i = inner(); this.j = (function () { return new.target; })(); this.k = new (function () { this.t = new.target !== undefined; })().t; } }
let a = new A();
print(a.i, a.j, a.k);
function Plain() { this.n = inner(); }
print(new Plain().n);
class B { constructor() { try { A.call(this); } catch (e) { print(e instanceof TypeError); } } }
new B();
