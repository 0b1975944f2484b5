import { print } from "host";
function* g() {
  let o = { m(...a) { return this === o ? a.join("+") : "wrong"; } };
  print(o.m(yield 1, yield 2), o[yield 3](yield 4), o.m(...(yield 5), yield 6));
  (yield 7)(yield 8);
  print(new (yield 9)(yield 10).v, (yield 11).k, (yield 12)[yield 13]);
  o[yield 14] = yield 15;
  o.n = yield 16;
  print(o.z, o.n, delete o[yield 17], o.z);
  o[yield 18] += yield 19;
  print(o.n);
}
let it = g();
for (let v of [0, "a", "b", "m", "c", [1, 2], 3, x => print("called", x), "arg", class { constructor(v) { this.v = v; } }, "n", { k: "member" }, [5, 6], 1, "z", 9, 8, "z", "n", 4]) it.next(v);
