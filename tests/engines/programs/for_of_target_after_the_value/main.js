import { print } from "host";
let n = 0, o = [];
let it = { [Symbol.iterator]() { return this; }, next() { print("next"); return { value: n, done: n++ > 1 }; } };
for ((print("target"), o)[n] of it) print(o.length);
