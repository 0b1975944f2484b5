import { print } from "host";
const o = { n: 1 };
o.n++;
o.m = 5;
print(o.n, o.m);
const [a, { b: [c] }] = [1, { b: [2] }];
print(a, c);
