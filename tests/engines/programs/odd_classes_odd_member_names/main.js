import { print } from "host";
class C {
  get() { return "get"; } set() { return "set"; } static() { return "static"; } static static() { return "ss"; }
  get get2() { return 1; } *gen() { yield "y"; } "quoted name"() { return "q"; } 12() { return 12; } 0x10() { return 16; } static get get() { return "sg"; }
  static set set(v) { print("static set", v); } async() { return "async"; } of() { return "of"; } default() { return "default"; } class() { return "class"; } ["constructor2"]() { return "c"; } ; ;
  yield() { return "yield"; } await() { return "await"; } let() { return "let"; } new() { return "new"; } typeof() { return "typeof"; }
  static constructor() { return "a static constructor"; } static *[Symbol.iterator]() { yield 1; yield 2; }
}
let c = new C();
print(c.get(), c.set(), c.static(), C.static(), c.get2, c["quoted name"](), c[12](), c[16](), C.get, c.async(), c.of());
print(c.default(), c.class(), c.constructor2(), c.yield(), c.await(), c.let(), c.new(), c.typeof(), [...c.gen()][0]);
C.set = 4; print(C.constructor(), [...C].join());
let o = { get, set: 1, get get() { return "g"; }, set set(v) { print(v); }, async: 2, static: 3, if: 4, *in() { yield 5; }, get if2() { return 6; }, "a b": 7, 1: 8, 0b11: 9, 0o17: 10 };
function get() { return 0; }
print(o.get, o.async, o.static, o.if, [...o.in()][0], o.if2, o["a b"], o[1], o[3], o[15]); o.set = "set";
