import { print } from "host";
function it(n, tag) {
  let i = 0;
  return { [Symbol.iterator]() { return this; }, next() { return { value: i, done: i++ >= n }; }, return() { print("close " + tag); return {}; } };
}
for (let x of it(5, "break")) { if (x === 2) break; print(x); }
for (let x of it(2, "never")) continue;
outer: for (let y of it(2, "outer")) for (let x of it(3, "inner")) { if (x === 1) continue outer; print(y, x); }
out: for (let y of it(2, "o")) for (let x of it(3, "i")) break out;
try { for (let x of it(3, "throw")) throw "t" + x; } catch (e) { print(e); }
function f() { for (let x of it(3, "return")) return x + 40; }
print(f());
