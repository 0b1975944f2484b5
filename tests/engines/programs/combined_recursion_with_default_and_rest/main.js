import { print } from "host";
const flatten = ([first, ...others] = [], out = []) => first === undefined ? out : (Array.isArray(first) ? flatten(first, out) : out.push(first), flatten(others, out));
print(flatten([1, [2, [3, [4]], 5], [[6]]]).join());
const compose = (f = x => x, ...fs) => fs.length ? (...a) => f(compose(...fs)(...a)) : f;
print(compose(x => x + 1, x => x * 2, (x, y) => x - y)(10, 3), compose()(4));
function curry(f, n = f.length, ...have) { return n <= 0 ? f(...have) : (...more) => curry(f, n - more.length, ...have, ...more); }
print(curry((a, b, c) => a + b * c)(1)(2, 3), curry((a, b) => a - b)(5)(1));
