import { print } from "host";
function a(x, f = () => x, g = (v) => { x = v; }) { var x; print(x, f()); x = 2; g(3); print(x, f()); let y = x; { let x = 9; print(x, f()); } return y; }
print(a(1));
function b(x, y = x, z = () => x + y, { w = z(), v: [u = w] = [] } = {}) { y = "changed"; return z() + w + u; }
print(b("x"), b("p", "q"), b("p", undefined, () => "z"), b("1", "2", undefined, { w: "w", v: "v" }));
function c(f = () => arguments[0], g = () => this, ...h) { arguments[0] = 1; return f() + "," + (g() === undefined) + "," + h.length + "," + arguments.length; }
print(c(), c(undefined, undefined, 3, 4));
function d(x = 1) { var y = x; function x() { } return typeof x + typeof y; }
print(d());
function e(f = function () { return typeof e; }, g = class { static m() { return typeof f; } }) { var f = 5; return g.m() + typeof f; }
print(e(), e.length, a.length, b.length, ((x, y) => 1).length, ((x = 1, y) => 1).length, ((...z) => 1).length);
const r = (n, acc = "") => n ? r(n - 1, acc + n) : acc; print(r(4));
print((([a, b] = [1, 2], { c } = { c: a + b }) => a + b + c)(), ((a, b = a++, c = a) => [a, b, c].join())(1));
let o = { m(x = this.n, y = () => super_free(x)) { return y(); }, n: 5, set s([p, q = p]) { print(p, q); } }; function super_free(v) { return v; }
print(o.m()); o.s = [1]; o.s = "xy";
