import { print } from "host";
function f(a) { a = 2; let b = arguments[0]; arguments[0] = 3; return [a, b, arguments[0], arguments.length].join(); }
print(f(1), f(), (function () { return arguments.length; })(...[1, 2], 3));
function g() { arguments.length = 1; return [...arguments].length; } print(g(1, 2, 3));
function h() { let out = ""; for (const a of arguments) out += a; [].push.call; return out + [].join.call(arguments, "-"); }
print(h("a", "b"), f.call(null, 7), f.apply(null, [8, 9]), h.apply(undefined, (function () { return arguments; })("x", "y")));
let { length, 0: first } = (function () { return arguments; })("z", 1); print(length, first);
let k = (...a) => ((...b) => b.length + a.length)(...a, ...a); print(k(1, 2));
