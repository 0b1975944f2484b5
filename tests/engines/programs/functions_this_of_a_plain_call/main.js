import { print } from "host";
function f() { return this; }
print(f() === undefined);
let o = { f };
print(o.f() === o, (0, o.f)() === undefined, (o.f)() === o);
print(f.call(5), f.call("t"), f.call(null), f.apply(true, []));
print(this);
