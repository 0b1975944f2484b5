import { print } from "host";
let inner = { [Symbol.iterator]() { return this; }, next() { return { value: 1, done: false }; }, return() { print("closed", arguments.length); return {}; } };
function* g() { yield* inner; }
let o = g();
o.next();
try { o.throw(5); } catch (e) { print(e instanceof TypeError); }
print(o.next().done);
inner.return = () => { throw "from return"; };
let p = g();
p.next();
try { p.throw(6); } catch (e) { print(e); }
