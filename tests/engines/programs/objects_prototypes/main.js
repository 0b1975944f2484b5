import { print } from "host";
let base = { k: 1, m() { return this.k; }, get g() { return this.k + 1; }, set g(v) { this.k = v; } };
let o = Object.create(base);
print(o.k, o.m(), o.g, o.hasOwnProperty("k"));
o.k = 5;
print(o.k, base.k, o.m(), o.g, o.hasOwnProperty("k"));
let p = Object.create(base);
p.g = 9;
print(p.k, base.k, p.hasOwnProperty("k"), p.hasOwnProperty("g"));
let n = Object.create(null);
n.x = 1;
print(n.x, "toString" in n, n.y);
try { Object.create(5); } catch (e) { print(e instanceof TypeError); }
