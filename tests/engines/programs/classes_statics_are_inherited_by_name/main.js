import { print } from "host";
class A { static m() { return this.tag(); } static tag() { return "A"; } static *each() { yield this.tag(); yield "end"; } }
class B extends A { static tag() { return "B"; } }
class C extends B {}
print(A.m(), B.m(), C.m(), [...C.each()].join());
print("m" in C, "tag" in B);
