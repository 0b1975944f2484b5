import { print } from "host";
class A { static *[Symbol.iterator]() { yield this.tag(); yield "end"; } static tag() { return "A"; } }
class B extends A { static tag() { return "B" + super.tag(); } }
print(...A, ...B);
for (const x of B) { print(x); break; }
let [first] = A;
print(first);
