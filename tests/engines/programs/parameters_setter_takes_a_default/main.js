import { print } from "host";
let o = { n: 0, set k(v = 4) { this.n = v; }, set p({ a, b = a }) { this.n = a + b; } };
o.k = undefined;
print(o.n);
o.k = 6;
print(o.n);
o.p = { a: 5 };
print(o.n);
