import { print } from "host";
class A { constructor(...a) { this.n = a.length; this.t = new.target; } }
class B extends A {}
class C extends B {}
let c = new C(1, 2, 3);
print(c.n, c.t === C, c instanceof A, new B().n);
class D {}
print(new D() instanceof D, D.prototype.constructor === D);
