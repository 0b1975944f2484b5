import { print } from "host";
let log = [];
function make(more) { let o = { [Symbol.iterator]() { return this; }, next(v) { log.push("next " + v + arguments.length); return { value: 1, done: false }; } }; for (let k of more) o[k] = v => { log.push(k + " " + v); return { value: k, done: false }; }; return o; }
function* g(it) { try { return yield* it; } catch (e) { log.push("caught " + (e instanceof TypeError ? "TypeError" : e)); } }
let a = g(make(["throw", "return"]));
a.next(0); a.next(1);
print(a.throw("e").value, a.return("r").value, a.next(2).done);
let b = g(make([]));
b.next();
print(b.return("done").value);
let c = g(make(["return"]));
c.next();
c.throw("x");
let d = g(make([]));
d.next();
d.throw("y");
log.forEach(l => print(l));
