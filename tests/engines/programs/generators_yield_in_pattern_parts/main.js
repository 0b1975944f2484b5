import { print } from "host";
function* g() {
  let [a = yield 1, b] = [undefined, 2], { c = yield 3, [yield 4]: d, e: { f } = yield 5 } = { key: "d" };
  print(a, b, c, d, f);
  let o = {};
  [o[yield 6], o.q = yield 7, ...o.r] = yield 8;
  ({ [yield 9]: o[yield 10] = yield 11 } = yield 12);
  print(o.p, o.q, o.r.join(), o.t);
  for (let [x = yield 13] of [[1], []]) print(x);
  for (const { y } of yield 14) print(y);
}
let it = g();
for (let v of [0, "A", "C", "key", { f: "F" }, [1, undefined, 3, 4], "p", "Q", {}, "s", "t", "T", 2, [{ y: 5 }]]) it.next(v);
