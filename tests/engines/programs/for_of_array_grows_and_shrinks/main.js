import { print } from "host";
let xs = [1, 2, 3];
for (let x of xs) { print(x); if (x < 3) xs.push(x + 10); }
xs = [1, 2, 3, 4];
for (let x of xs) { print(x); xs.pop(); }
print(xs.join());
