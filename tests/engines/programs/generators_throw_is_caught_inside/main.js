import { print } from "host";
function* g() {
  for (;;) try { print("got", yield "y"); } catch (e) { if (e === "stop") return "stopped"; print("caught", e); } finally { print("fin"); }
}
let o = g(), show = r => print(r.value, r.done);
show(o.next()); show(o.next(1)); show(o.throw("e")); show(o.throw("stop")); show(o.next());
function* h() { yield 1; }
let p = h();
p.next();
try { p.throw("out"); } catch (e) { print(e, p.next().done); }
