import { print } from "host";
function f() { return f.count = (f.count || 0) + 1; }
f(); f();
print(f.count, f.hasOwnProperty("count"), "count" in f, delete f.count, f.count);
let g = () => 1;
g.k = { deep: [1] };
g.k.deep.push(2);
print(g.k.deep.join());
f.prototype.m = function () { return "m"; };
print(new f().m(), f.prototype.constructor === f);
