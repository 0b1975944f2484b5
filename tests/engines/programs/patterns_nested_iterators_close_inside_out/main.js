import { print } from "host";
let make = (tag, v) => ({ [Symbol.iterator]() { return this; }, next() { return { value: v, done: false }; }, return() { print("close", tag); return {}; } });
let [[a], b] = make("outer", make("inner", 1));
print(a, typeof b);
try { let [[c = (() => { throw "x"; })()]] = make("o2", make("i2", undefined)); } catch (e) { print(e); }
