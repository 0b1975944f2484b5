import { print } from "host";
let o = { "": 1, " ": 2, "a-b": 3, "0": 4, "01": 5, "-1": 6, "\u2028": 8, "\n": 9, 'quo"te': 10, "toString": 11, "constructor": 12, "hasOwnProperty": 13, "\ud800": 14, 4294967295: 15, 9007199254740991: 16, "true": 17, null: 18, undefined: 19 };
print(o[""], o[" "], o["a-b"], o[0], o["01"], o[-1], o["\u2028"], o["\n"], o['quo"te'], o.toString, o.constructor, o.hasOwnProperty, o["\ud800"], o[4294967295], o[9007199254740991], o[true], o[null], o[undefined], o[void 0]);
let { "a-b": ab, 0: zero, ["" + ""]: empty, undefined: u } = o; print(ab, zero, empty, u);
let p = {}; p.if = 1; p.class = p.if + 1; p.prototype = 3; p.arguments = 4; p.eval = 5; p.caller = 6; p["@"] = 7; print(p.if, p.class, p.prototype, p.arguments, p.eval, p.caller, p["@"]);
class C { "a b"() { return 1; } 5() { return 2; } ""() { return 3; } static "x y"() { return 4; } get "g h"() { return 5; } ["p" + "q"]() { return 6; } } let c = new C(); print(c["a b"](), c[5](), c[""](), C["x y"](), c["g h"], c.pq());
print({ a: 1, a: 2 }.a, { a: 1, ["a"]: 3 }.a, { get a() { return 4; }, ["a"]: 5 }.a, { ["a"]: 6, get a() { return 7; } }.a);
