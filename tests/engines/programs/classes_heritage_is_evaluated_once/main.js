import { print } from "host";
let n = 0;
class A { m() { return "m"; } }
let make = B => class extends B { m() { return super.m() + n; } };
class C extends (n++, make(make(A))) {}
print(new C().m(), n);
class D extends make(A) { m() { return "D" + super.m(); } }
print(new D().m());
function F() { this.f = "F"; }
F.prototype.p = () => "proto";
class E extends F { constructor() { super(); this.e = 1; } }
print(new E().f, new E().p(), new E() instanceof F);
