import { print } from "host";
function* g(base) {
  class C extends (yield "heritage") {
    constructor() { super(); this.k = "made"; }
    [yield "first"]() { return "m" + this.k; }
    static [yield "second"]() { return "s"; }
    get [yield "third"]() { return super.name2; }
    *[yield "fourth"]() { yield* [this.k, super.base()]; }
  }
  return C;
}
class Base { base() { return "base"; } get name2() { return "named " + this.k; } }
let o = g(), r = o.next(), names = ["gen", "third", "st", "m"];
print(r.value); r = o.next(Base);
while (!r.done) { print(r.value); r = o.next(names.pop()); }
let C = r.value, c = new C();
print(c.m(), C.st(), c.third, [...c.gen()].join());
