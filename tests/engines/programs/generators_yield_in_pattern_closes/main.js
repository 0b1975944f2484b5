import { print } from "host";
let it = { [Symbol.iterator]() { return this; }, next() { return { value: undefined, done: false }; }, return() { print("closed"); return {}; } };
function* g() { let [a = yield "in pattern"] = it; print("a", a); }
let o = g();
print(o.next().value);
o.next("v");
o = g();
o.next();
print(o.return("r").value);
o = g();
o.next();
try { o.throw("t"); } catch (e) { print(e); }
