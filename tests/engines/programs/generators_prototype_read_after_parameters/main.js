import { print } from "host";
function* g(a = (g.prototype = { tag: "late" }, 1)) { yield a; }
let o = g();
print(o.tag);
