import { print } from "host";
let a = 1, k = "key", o = { a, b: 2, "c d": 3, 4: 4, [k]: 5, [k + 1]: 6, m() { return this.a; }, get g() { return this.b; }, set g(v) { this.b = v; }, *gen() { yield this.a; }, get: 7, set: 8, static: 9, if: 10, null: 11 };
print(o.a, o.b, o["c d"], o[4], o.key, o.key1, o.m(), o.g, o.gen().next().value, o.get, o.set, o.static, o.if, o.null);
o.g = 20;
print(o.b, o.g, {}.a, { a: { b: { c: 1 } } }.a.b.c);
