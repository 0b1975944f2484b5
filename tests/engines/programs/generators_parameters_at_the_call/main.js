import { print } from "host";
let log = t => { print(t); return t; };
function* g(a = log("default"), { b } = { b: log("pattern") }, ...r) { print("body", a, b, r.length); yield arguments.length; }
let o = g();
print("made");
print(o.next().value);
try { g(1, null); } catch (e) { print(e instanceof TypeError); }
function* h(x) { x = 5; let f = () => x; yield x; x = 6; yield f(); }
print([...h(1)].join());
