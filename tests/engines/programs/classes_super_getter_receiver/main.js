import { print } from "host";
class A { get k() { return this.n; } }
class B extends A { get k() { return super.k + 1; } }
class C extends B { get k() { return super.k * 10; } }
let b = new C();
b.n = 4;
print(b.k, Object.create(b).k);
