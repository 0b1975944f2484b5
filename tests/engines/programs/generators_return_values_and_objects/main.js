import { print } from "host";
function* g() { let o = yield; try { return o; } finally { o.k = "late"; } }
let it = g();
it.next();
let r = it.next({ k: "early" });
print(r.value.k, r.done);
function* h() { return yield* (function* () { return yield 1; })(); }
let q = h();
print(q.next().value, q.next("through").value);
print(g() === g(), typeof it, it instanceof g);
