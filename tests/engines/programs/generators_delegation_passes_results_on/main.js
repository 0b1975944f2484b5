import { print } from "host";
let result = { value: 1, done: false, extra: "kept" };
let it = { [Symbol.iterator]() { return this; }, next() { return result; }, return(v) { print("return", v); return { get value() { print("read"); return "v"; }, done: true }; } };
function* g() { yield* it; }
let o = g();
print(o.next() === result, o.next().extra);
let r = o.return(4);
print(r.value, r.done, r === result);
let getters = { [Symbol.iterator]() { return this; }, next() { return { get value() { print("value"); return 5; }, get done() { print("done"); return false; } }; } };
function* h() { yield* getters; }
let p = h().next();
print("now", p.value);
