import { print } from "host";
class A { static make() { return "A" + this.tag(); } static tag() { return "a"; } *g() { yield "Ag"; return "end"; } }
class B extends A {
  static make() { return "B" + super.make(); }
  static tag() { return "b"; }
  *g() { yield "Bg"; let r = yield* super.g(); yield r; }
}
print(B.make(), [...new B().g()].join());
