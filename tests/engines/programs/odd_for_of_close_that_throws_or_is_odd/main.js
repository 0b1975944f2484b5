import { print } from "host";
function it(ret) { return { [Symbol.iterator]() { return this; }, next() { return { value: 1, done: false }; }, get return() { print("get"); return ret; } }; }
function t(f) { try { print(f()); } catch (e) { print(typeof e === "string" ? e : e instanceof TypeError ? "TypeError" : "?"); } }
for (const ret of [undefined, null, 5, () => 5, () => ({}), () => { throw "closing"; }]) {
  t(() => { for (let v of it(ret)) break; return "break"; });
  t(() => { for (let v of it(ret)) throw "own"; });
  t(() => { for (let v of it(ret)) return "return"; });
  t(() => { let [a] = it(ret); return "pattern"; });
  t(() => { let [a, [b]] = it(ret); return "pattern"; });
  t(() => { let [...a] = (function* () { yield 1; })(); return a.length; });
  t(() => { let [] = it(ret); return "none"; });
}
