import { print } from "host";
class A { m() { return "A"; } }
class B extends A { m() { return "B" + super.m(); } }
class C extends A { m() { return "C" + super.m(); } }
let o = { m: B.prototype.m };
print(o.m(), B.prototype.m.call({ m() { return "other"; } }));
C.prototype.k = B.prototype.m;
print(new C().k(), new C().m());
A.prototype.m = () => "changed";
print(new B().m());
