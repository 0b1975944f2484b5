import { print } from "host";
print(...[1, 2], ...[], 3, ..."ab");
let o = { n: 100, f(...a) { return this.n + a.length; } };
print(o.f(...[1, 2], 3), o["f"](...[]), (0, (...a) => a.length)(...[1, 2, 3]));
let f = (...a) => (...b) => a.length * 10 + b.length;
print(f(...[1, 2])(...[3, 4, 5]));
