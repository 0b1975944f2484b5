import { print } from "host";
let n = 0;
let it = { [Symbol.iterator]() { return this; }, next() { if (n++ > 1) throw "stop"; return { value: n, done: false }; }, return() { print("closed"); return {}; } };
try { print(...it); } catch (e) { print(e); }
