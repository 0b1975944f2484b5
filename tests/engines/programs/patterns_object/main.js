import { print } from "host";
let { a, b: c, "d e": d, 5: five, [`k${1}`]: k } = { a: 1, b: 2, "d e": 3, 5: 4, k1: 5 };
print(a, c, d, five, k);
let { length } = "four", { x = 1, y = x + 1, z = y + 1 } = { y: 5 };
print(length, x, y, z);
let {} = 1;
var { p: { q: [r, { s }] } } = { p: { q: [7, { s: 8 }] } };
print(r, s);
