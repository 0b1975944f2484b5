import { print } from "host";
class A { constructor(x) { this.x = x; } }
class B extends A { constructor(y, a = super(y)) { this.same = a === this; } }
print(new B(2).x, new B(3).same);
class C extends A { constructor(y = () => this) { super(1); this.f = y; } }
let c = new C();
print(c.f() === c);
