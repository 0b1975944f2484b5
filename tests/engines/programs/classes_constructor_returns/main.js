import { print } from "host";
class A { constructor(v) { this.k = "this"; return v; } }
let o = { k: "object" };
print(new A(o) === o, new A(5).k, new A(null).k, new A("t").k, new A(undefined).k, new A(() => 1)());
function F(v) { this.k = "f"; return v; }
print(new F(o).k, new F(1).k);
class B extends A { constructor(v) { super(v); this.b = 1; } }
print(new B(o).b, o.b, new B(3).b);
