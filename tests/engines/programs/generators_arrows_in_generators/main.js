import { print } from "host";
function* g() {
  let f = () => this, h = x => { k += x; return k; }, k = 0;
  for (let i = 0; i < 3; i++) { h(yield k); }
  yield f().tag;
  let again = (...a) => [...a, ...arguments].join();
  return again(yield "args", k);
}
let it = g.call({ tag: "this" }, "x", "y"), v;
for (const s of [0, 1, 2, 3, 0, "last"]) print(it.next(s).value);
