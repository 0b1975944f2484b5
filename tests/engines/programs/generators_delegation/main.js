import { print } from "host";
function* a() { try { let x = yield 1; print("a", x); let y = yield 2; return x + y; } finally { print("a fin"); } }
function* b() { let r = yield* a(); print("b", r); yield* [7, 8]; yield* "xy"; return "end"; }
let o = b(), show = r => print(r.value, r.done);
show(o.next()); show(o.next(10)); show(o.next(20)); show(o.next()); show(o.next()); show(o.next()); show(o.next()); show(o.next());
let q = b();
q.next(); show(q.return(5));
let t = b();
t.next();
try { t.throw(6); } catch (e) { print("thrown", e); }
show(t.next());
