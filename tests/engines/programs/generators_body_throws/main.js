import { print } from "host";
function* g() { yield 1; throw "body"; }
let o = g();
print(o.next().value);
try { o.next(); } catch (e) { print(e); }
let r = o.next();
print(r.value, r.done);
