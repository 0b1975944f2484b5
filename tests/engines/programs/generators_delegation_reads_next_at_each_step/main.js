import { print } from "host";
let it = { [Symbol.iterator]() { return this; }, next(v) { it.next = w => ({ value: "late " + w, done: true }); return { value: "early", done: false }; } };
function* g() { print(yield* it); }
let o = g();
print(o.next("a").value);
print(o.next("b").done);
