import { print } from "host";
let log = t => { print(t); return t; };
let it = tag => { let n = 0; return { [Symbol.iterator]() { print("iter", tag); return this; }, next() { print("next", tag); return { value: tag + n, done: n++ >= 1 }; }, return() { print("never"); return {}; } }; };
print([log("a"), ...it("x"), log("b"), ...it("y")].join());
((...all) => print(all.join()))(log("c"), ...it("z"), log("d"));
