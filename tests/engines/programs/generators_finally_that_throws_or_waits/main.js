import { print } from "host";
function* g() { try { try { yield 1; } finally { print("in"); yield "wait"; throw "f"; } } catch (e) { print("caught", e); yield "c"; } finally { print("out"); } return "end"; }
let show = r => print(r.value, r.done);
let o = g();
show(o.next()); show(o.return("r")); show(o.next()); show(o.next());
o = g();
show(o.next()); show(o.throw("t")); show(o.return("again")); show(o.next());
