import { print } from "host";
function* g(a) { let b = yield a; print("b", b); let c = yield b + 1; print("c", c); return b + c; }
let o = g(4), show = r => print(r.value, r.done);
show(o.next("lost"));
show(o.next(6));
show(o.next(10));
show(o.next());
show(g().next());
