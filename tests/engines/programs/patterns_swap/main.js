import { print } from "host";
let a = 1, b = 2, c = 3;
[a, b] = [b, a];
print(a, b);
[a, b, c] = [c, a, b];
print(a, b, c);
let xs = [1, 2, 3];
[xs[0], xs[2]] = [xs[2], xs[0]];
print(xs.join());
