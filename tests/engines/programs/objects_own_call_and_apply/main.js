import { print } from "host";
let f = function (x) { return "f" + x; };
f.call = () => "own call";
f.apply = () => "own apply";
print(f(...[1]), f.call(1), f.apply(1));
let o = { f, g: f };
print(o.f(...[2]), o.g(3));
function* g() { print(f(yield 1)); let r = o.f(yield 2); print(r); }
let it = g();
it.next(); it.next("a"); it.next("b");
