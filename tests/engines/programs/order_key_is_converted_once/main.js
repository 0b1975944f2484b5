import { print } from "host";
let n = 0, key = { toString() { n++; print("key", n); return "k"; } }, o = { k: 1 };
o[key] += 5;
o[key]++;
--o[key];
print(o.k, n);
