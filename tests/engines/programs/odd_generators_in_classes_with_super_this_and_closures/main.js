import { print } from "host";
class A { *list() { yield this.k; yield* this.more(); } *more() { yield "A"; } static *make() { yield new this(); } constructor() { this.k = "k"; } }
class B extends A { *list() { yield "B"; const r = yield* super.list(); yield (() => super.more)() === A.prototype.more; return r; } *more() { try { yield* super.more(); } finally { print("closed"); } } *[Symbol.iterator]() { let self = this; yield* [1, 2].includes(1) ? (function* () { yield self.k; })() : []; } }
let b = new B(); print([...b.list()].join(), [...b].join()); for (const v of b.list()) { print(v); if (v === "A") break; }
for (const v of B.make()) print(v instanceof B);
function* tree(n) { if (n > 0) { yield* tree(n - 1); yield n; yield* tree(n - 1); } } print([...tree(4)].join(""));
function* fib() { let [a, b] = [0, 1]; for (;;) { yield a; [a, b] = [b, a + b]; } } let out = []; for (const v of fib()) { if (v > 90) break; out.push(v); } print(out.join());
function* take(n, it) { if (n <= 0) return; for (const v of it) { yield v; if (--n <= 0) return; } } function* mapped(f, it) { for (const v of it) yield f(v); } function* zip(...its) { its = [...mapped((i) => i[Symbol.iterator](), its)]; for (;;) { let row = []; for (const i of its) { let r = i.next(); if (r.done) return; row.push(r.value); } yield row; } }
for (const [x, y, z] of zip(take(3, fib()), "abcd", mapped((v) => v * v, fib()))) print(x, y, z);
let fs = []; function* cl() { for (let i = 0; i < 3; i++) { fs.push(() => i); yield i; let j = i * 10; fs.push(() => j++); } } for (const v of cl()) ; print([...mapped((f) => f(), fs)].join(), fs[1](), fs[1]());
let gm = { *a() { yield* this.b(); }, b: function* () { yield this === gm; }, *["c" + 1]() { yield arguments.length; } }; print(gm.a().next().value, gm.c1(1, 2).next().value);
