import { print } from "host";
function show(r) { print(r.value, r.done); }
function* a() { try { return print("body"), 1; } finally { print("f"); return 2; } }
show(a().next());
function* b() { try { return 1; } finally { yield 5; print("after"); return 3; } }
let o = b(); show(o.next()); show(o.next()); show(o.next());
function* c() { L: try { return 1; } finally { break L; } print("went on"); yield 7; }
o = c(); show(o.next()); show(o.next());
function* d() { for (let i = 0; i < 3; i++) { try { yield i; } finally { if (i < 2) continue; print("last"); } } return "end"; }
o = d(); show(o.next()); show(o.return("a")); show(o.return("b")); show(o.return("c")); show(o.next());
function* e() { try { try { yield 1; } finally { throw "inner"; } } catch (x) { print("caught", x); yield 2; } finally { print("out"); } return 4; }
o = e(); show(o.next()); show(o.return(9)); show(o.next()); show(o.next());
function* f() { while (true) { try { yield 1; } finally { try { yield 2; } finally { print("deep"); continue; } } } }
o = f(); show(o.next()); show(o.return(5)); show(o.return(6)); show(o.next());
