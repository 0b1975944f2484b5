import { print } from "host";
let tag = (t, ...v) => t.join("_") + v.join();
function* g() { print(tag`a${yield 1}b${yield 2}c`); let r = (yield 3)`x${yield 4}`; print(r); }
let o = g();
print(o.next().value, o.next("p").value, o.next("q").value);
print(o.next((t, v) => t[0] + v).value);
o.next("w");
