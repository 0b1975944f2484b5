import { print } from "host";
class A { static m() { return 1; } static get k() { return this.n; } static set k(v) { this.n = v * 2; } }
class B extends A {}
class C extends B { static m() { return super.m() + 10; } }
print(B.m(), C.m());
B.m = () => 2;
print(B.m(), A.m(), C.m());
C.k = 3;
print(C.k, C.n);
