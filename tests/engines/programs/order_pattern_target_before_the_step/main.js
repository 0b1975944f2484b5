import { print } from "host";
let o = null;
let it = { [Symbol.iterator]() { return this; }, next() { print("step"); return { value: 1, done: false }; }, return() { print("closed"); return {}; } };
try { [o.x] = it; } catch (e) { print(e instanceof TypeError); }
let key = { toString() { print("key"); return "k"; } };
o = {};
[o[key]] = it;
print(o.k);
