import { print } from "host";
let a, b;
print(([a] = [1], a), ({ b } = { b: 2 }).b, a + b);
let g = ([p, q] = [1, 2], { r = p } = {}) => p + q + r;
print(g(), g([3, 4]), g([1, 1], { r: 5 }));
while (([a] = [a + 1]) && a < 4) print(a);
