import { print } from "host";
function* g() {
  let x = 1, o = { k: 5, f(a, b) { return this.k + a + b; } }, a = [1, 2];
  print(x + (yield) + x, [x, yield, x].join(), { p: x, q: yield, r: x }.p, `${x}${yield}${x}`);
  let p = o;
  print(p.f(x, yield (p = null, x = 50)), x);
  print(a[(yield) - 1] + a[yield], (yield) ? x : yield);
}
let it = g();
it.next(); it.next(10);
for (let v of [2, 3, 4, 6, 2, 0, 0, "no"]) it.next(v);
