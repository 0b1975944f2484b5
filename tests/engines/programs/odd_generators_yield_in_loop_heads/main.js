import { print } from "host";
function* g() {
  for (let i = yield "init", f = () => i; (yield i) > 0; i -= yield "step") print("body", i, f());
  for (let v of yield "list") print(v);
  let o = {};
  for (o[yield "key"] of [1, 2]) print(o.a, o.b);
  for ([o.x, o.y = yield "default"] of [[1], [2, 3]]) print(o.x, o.y);
  do { print("turn"); } while (yield "again");
  L: while (yield "while") { switch (yield "case") { case yield "first": print("one"); continue L; default: print("other"); case "fall": print("fell"); break L; } }
  if (yield "if") print("then"); else print("else");
  throw yield "throw";
}
const answers = { init: 2, 2: 1, step: 1, 1: 1, 0: 0, list: ["p", "q"], default: "d", again: 0, while: 1, if: 0, throw: "end" };
let keys = ["a", "b"], cases = ["z", "y"], firsts = ["z", "w"];
let o = g(), r = o.next(), left = 40;
try {
  while (!r.done && left-- > 0) {
    let v = r.value;
    r = o.next(v === "key" ? keys.pop() : v === "case" ? cases.pop() : v === "first" ? firsts.pop() : answers[v]);
  }
} catch (e) { print("threw", e); }
