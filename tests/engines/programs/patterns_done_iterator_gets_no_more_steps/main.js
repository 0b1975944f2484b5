import { print } from "host";
let n = 0;
let it = { [Symbol.iterator]() { return this; }, next() { print("next"); return { value: "v", done: n++ > 0 }; }, return() { print("never"); return {}; } };
let [a, b = "d1", c = "d2", ...d] = it;
print(a, b, c, d.length);
