import { print } from "host";
let n = 0, subject = () => { n++; return [1, 2, 3]; };
for (let x of subject()) print(x, n);
for (let x of (n = 5, [n])) print(x);
