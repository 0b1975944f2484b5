import { print } from "host";
function* g(n) {
  for (let i = yield "init"; i < (yield "test"); i += yield "update") print("for", i);
  while ((yield "while") > 0) print("w");
  do print("d"); while (yield "do");
  for (const x of yield "of") { print(x); if (x === 2) continue; print(yield x); }
  l: for (let i = 0; i < 3; i++) { for (;;) { if (yield i) continue l; break l; } }
  return "end";
}
let o = g(), r;
for (let v of [0, 0, 2, 1, 2, 1, 2, 1, 0, 1, 0, [1, 2, 3], "a", "b", 1, 0]) { r = o.next(v); }
print(r.value, r.done);
