import { print } from "host";
let it = [1, 2, 3, 4][Symbol.iterator]();
print(it.next().value, it[Symbol.iterator]() === it);
for (let x of it) { print(x); if (x === 2) break; }
print([...it].join(), it.next().done, it.next().value);
let s = "ab"[Symbol.iterator]();
for (let c of s) { print(c); break; }
print(...s);
