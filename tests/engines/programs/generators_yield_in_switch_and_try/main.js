import { print } from "host";
function* g() {
  switch (yield "subject") { case yield "c1": print("one"); case yield "c2": print("two"); break; default: print("default", yield "in"); case 5: print("five"); }
  try { throw yield "to throw"; } catch ({ a, b = yield "b" }) { print(a, b); } finally { print(yield "fin"); }
  l: { if (yield "label") break l; print("no"); }
  throw yield "last";
}
for (let vs of [[0, 1, 1, { a: 1 }, "B", "f", 1, "T"], [0, 2, 1, 2, { a: 3, b: 4 }, "g", 1, "U"], [0, 9, 1, 2, "D", { a: 3, b: 4 }, "h", true, "V"]]) {
  let o = g();
  try { for (let v of vs) print("y", o.next(v).value); } catch (e) { print("thrown", e); }
}
