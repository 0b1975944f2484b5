import { print } from "host";
let n = 0, o = { get k() { print("get", n); return n; }, set k(v) { print("set", v); n = v; } };
o.k = 4;
o.k += 2;
print(o.k++);
print(++o.k, -o.k);
let p = o;
p.k = p = 3;
print(p);
