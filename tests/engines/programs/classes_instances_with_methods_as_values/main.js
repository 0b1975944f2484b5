import { print } from "host";
class A { constructor() { this.n = 1; } inc() { return ++this.n; } }
let a = new A(), f = a.inc;
try { f(); } catch (e) { print(e instanceof TypeError); }
print(f.call(a), f.apply({ n: 5 }), a.inc === A.prototype.inc, a.inc());
