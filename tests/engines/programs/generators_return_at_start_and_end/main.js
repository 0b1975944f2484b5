import { print } from "host";
function* g() { print("never"); yield 3; }
let p = g(), r = p.return(7);
print(r.value, r.done, p.next().done, p.next().value);
let q = g();
try { q.throw("t"); } catch (e) { print(e); }
print(q.next().done);
r = q.return(8);
print(r.value, r.done);
try { q.throw("u"); } catch (e) { print(e); }
