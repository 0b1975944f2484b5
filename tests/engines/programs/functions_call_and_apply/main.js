import { print } from "host";
function f(a, b) { return [this === undefined ? "none" : this, a, b, arguments.length].join(); }
print(f.call(1, 2), f.apply("t", [3, 4]), f.call(), f.apply(undefined), f.apply(0, null), f.call.call(f, 5, 6));
function pass() { return f.apply("p", arguments); }
print(pass(1), pass(1, 2, 3));
let list = [];
Array.prototype.push.apply(list, [1, 2]);
list.push.apply(list, list);
print(list.join(), Object.prototype.hasOwnProperty.call({ k: 1 }, "k"), "".indexOf.call("abc", "c"));
try { f.apply.call(1); } catch (e) { print(e instanceof TypeError); }
let o = { hasOwnProperty: 1, k: 2 };
print(Object.prototype.hasOwnProperty.call(o, "k"), o.hasOwnProperty);
