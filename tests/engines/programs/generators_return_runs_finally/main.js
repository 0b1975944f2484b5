import { print } from "host";
function* g() { try { yield 1; } finally { yield 2; print("cleanup"); } }
let o = g(), show = r => print(r.value, r.done);
show(o.next()); show(o.return(9)); show(o.next()); show(o.next());
function* h() { try { yield 1; } finally { return "replaced"; } }
let p = h();
p.next(); show(p.return(5)); show(p.next());
function* k() { l: for (;;) { try { yield 1; } finally { break l; } } yield "after"; }
let q = k();
q.next(); show(q.return(5)); show(q.next());
