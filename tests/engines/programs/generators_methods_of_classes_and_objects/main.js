import { print } from "host";
class List {
  constructor(...xs) { this.xs = xs; }
  *[Symbol.iterator]() { for (let x of this.xs) yield x; }
  *map(f) { for (let x of this) yield f(x); }
  static *range(n) { for (let i = 0; i < n; i++) yield i; }
}
let l = new List(1, 2, 3);
print([...l].join(), [...l.map(x => x * x)].join(), [...List.range(3)].join());
let o = { *a() { yield 1; }, *["b" + 1]() { yield 2; }, *"c d"() { yield 3; }, *5() { yield 4; }, g: function* () { yield 5; }, *get() { yield 6; } };
print(...o.a(), ...o.b1(), ...o["c d"](), ...o[5](), ...o.g(), ...o.get());
